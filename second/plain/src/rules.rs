//! The rules over a whole file: 6, 7, 8, 10, 11, in that order.

use crate::file::{Access, Context, Domain, Entry, File, Item, List, Listed, Word};
use crate::policy::{self, first_repeat, Descriptor, DomainSet, Element, Grant, Policy, Sort, Uid};
use crate::refusal::{Refusal, COUNT, SAME_PRINCIPAL, TWICE, UNBOUND, UNKNOWN};
use std::collections::{HashMap, HashSet};

/// The meaning of a file whose page is in order.
pub fn policy(file: &File<'_>) -> Result<Policy, Refusal> {
    let fault = Refusal::smallest(COUNT, counts(file));
    let fault = fault.or_else(|| Refusal::smallest(TWICE, repeats(file)));
    if let Some(refusal) = fault {
        return Err(refusal);
    }
    let mut numbers = Numbers::new(file);
    let policy = numbers.policy(file);
    let fault = Refusal::smallest(UNKNOWN, numbers.unknown);
    let fault = fault.or_else(|| Refusal::smallest(UNBOUND, unbound(file)));
    let fault = fault.or_else(|| {
        let later = first_repeat(&policy.entries)?;
        Some(Refusal::at(SAME_PRINCIPAL, file.privileges[later].line))
    });
    match fault {
        Some(refusal) => Err(refusal),
        None => Ok(policy),
    }
}

/// 6: the lines that pass a limit.
fn counts(file: &File<'_>) -> Vec<u32> {
    let mut lines = Vec::new();
    for map in [&file.object_map, &file.subject_map] {
        lines.extend(map.iter().skip(policy::DOMAINS).map(|d| d.name.line));
        let mut members = 0;
        for domain in map {
            members += domain.members.elements.len();
            if members > policy::MEMBERS {
                lines.push(domain.members.line);
            }
        }
    }
    let entries = &file.privileges;
    lines.extend(entries.iter().skip(policy::ENTRIES).map(|entry| entry.line));
    let mut descriptors = 0;
    for entry in entries {
        // "For access descriptors the `principal` line of the entry that
        // passes 256."
        descriptors += entry.can_read.descriptors() + entry.can_write.descriptors();
        if descriptors > policy::DESCRIPTORS {
            lines.push(entry.line);
        }
        let objects = entry.items().map(|item| &item.context);
        for context in std::iter::once(&entry.context).chain(objects) {
            let long = |list: &&List<'_>| list.elements.len() > policy::ELEMENTS;
            lines.extend(context.call_context.iter().filter(long).map(|l| l.line));
        }
    }
    lines
}

/// 7: the lines on which a second one stands.
fn repeats(file: &File<'_>) -> Vec<u32> {
    let mut lines = Vec::new();
    let maps = [&file.object_map, &file.subject_map];
    // "Domain name (over both maps)."
    let mut names = HashSet::new();
    for domain in maps.into_iter().flatten() {
        if !names.insert(domain.name.bytes) {
            lines.push(domain.name.line);
        }
    }
    // "Identifier of one map."
    for map in maps {
        let mut identifiers = HashSet::new();
        for domain in map {
            lines.extend(repeats_in(&domain.members, &mut identifiers));
        }
    }
    // "Or name in one list twice."
    for entry in &file.privileges {
        let objects = entry.items().map(|item| &item.objects);
        for listed in [&entry.can_call, &entry.can_return]
            .into_iter()
            .chain(objects)
        {
            if let Listed::Names(list) = listed {
                lines.extend(repeats_in(list, &mut HashSet::new()));
            }
        }
    }
    lines
}

/// The list's line if an element was seen before.
fn repeats_in<'t>(list: &List<'t>, seen: &mut HashSet<&'t [u8]>) -> Option<u32> {
    let mut line = None;
    for element in &list.elements {
        if !seen.insert(element.bytes) {
            line = Some(list.line);
        }
    }
    line
}

/// 10: "object context variable not the one bound by that entry's same key".
fn unbound(file: &File<'_>) -> Vec<u32> {
    let mut lines = Vec::new();
    for entry in &file.privileges {
        for item in entry.items() {
            for (bound, used) in keys(&entry.context).into_iter().zip(keys(&item.context)) {
                let Some(used) = used.filter(is_variable) else {
                    continue;
                };
                if bound.filter(is_variable).map(|word| word.bytes) != Some(used.bytes) {
                    lines.push(used.line);
                }
            }
        }
    }
    lines
}

/// What stands at the keys that bind.
fn keys<'t>(context: &Context<'t>) -> [Option<Word<'t>>; 3] {
    [context.uid, context.gid, context.namespace]
}

/// Whether a good uid, gid or namespace is a variable. The last two are never
/// `root` or `user`, so one test serves all.
fn is_variable(word: &Word<'_>) -> bool {
    !matches!(word.bytes, b"all" | b"root" | b"user")
}

/// The sort of a good gid or namespace; omitted it is `all`.
fn sort(word: Option<Word<'_>>) -> Sort {
    match word.filter(is_variable) {
        None => Sort::All,
        Some(_) => Sort::Variable,
    }
}

/// Names to numbers, and the lines of names that a map lacks (8).
struct Numbers<'t> {
    object_domains: HashMap<&'t [u8], u16>,
    subject_domains: HashMap<&'t [u8], u16>,
    functions: HashMap<&'t [u8], u16>,
    unknown: Vec<u32>,
}

/// "Numbered from 0 in file order." Counts are within the limits by now.
fn numbered<'t>(names: impl Iterator<Item = &'t [u8]>) -> HashMap<&'t [u8], u16> {
    names.zip(0..).collect()
}

fn members<'f, 't>(map: &'f [Domain<'t>]) -> impl Iterator<Item = &'t [u8]> + use<'f, 't> {
    map.iter()
        .flat_map(|d| d.members.elements.iter().map(|member| member.bytes))
}

/// The domain of each member of a map.
fn domains_of(map: &[Domain<'_>]) -> Vec<u16> {
    let each = |(domain, number): (&Domain<'_>, u16)| vec![number; domain.members.elements.len()];
    map.iter().zip(0..).flat_map(each).collect()
}

impl<'t> Numbers<'t> {
    fn new(file: &File<'t>) -> Numbers<'t> {
        Numbers {
            object_domains: numbered(file.object_map.iter().map(|d| d.name.bytes)),
            subject_domains: numbered(file.subject_map.iter().map(|d| d.name.bytes)),
            functions: numbered(members(&file.subject_map)),
            unknown: Vec::new(),
        }
    }

    fn policy(&mut self, file: &File<'t>) -> Policy {
        Policy {
            object_domains: file.object_map.len() as u16,
            subject_domains: file.subject_map.len() as u16,
            objects: domains_of(&file.object_map),
            functions: domains_of(&file.subject_map),
            entries: file.privileges.iter().map(|e| self.entry(e)).collect(),
        }
    }

    /// A number that was found, or 0 and a line to refuse.
    fn found(&mut self, number: Option<u16>, line: u32) -> u16 {
        if number.is_none() {
            self.unknown.push(line);
        }
        number.unwrap_or(0)
    }

    fn entry(&mut self, entry: &Entry<'t>) -> policy::Entry {
        let subject = self.subject_domains.get(entry.subject.bytes).copied();
        policy::Entry {
            subject: self.found(subject, entry.subject.line),
            context: self.context(&entry.context),
            can_call: self.grant(&entry.can_call, false),
            can_return: self.grant(&entry.can_return, false),
            can_read: self.access(&entry.can_read),
            can_write: self.access(&entry.can_write),
        }
    }

    fn grant(&mut self, listed: &Listed<'t>, objects: bool) -> Grant {
        let Listed::Names(list) = listed else {
            return Grant::All;
        };
        let mut domains = DomainSet::default();
        for name in &list.elements {
            // "A name of the other map is not in this one" (point 17).
            let number = if objects {
                self.object_domains.get(name.bytes).copied()
            } else {
                self.subject_domains.get(name.bytes).copied()
            };
            domains.insert(self.found(number, list.line));
        }
        Grant::Domains(domains)
    }

    fn access(&mut self, access: &Access<'t>) -> Vec<Descriptor> {
        match access {
            Access::All => vec![Descriptor::all()],
            Access::Items(items) => items.iter().map(|item| self.item(item)).collect(),
        }
    }

    fn item(&mut self, item: &Item<'t>) -> Descriptor {
        Descriptor {
            objects: self.grant(&item.objects, true),
            context: self.context(&item.context),
        }
    }

    fn context(&mut self, context: &Context<'t>) -> policy::Context {
        let mut pattern = vec![Element::All];
        if let Some(list) = &context.call_context {
            let element = |name: &Word<'t>| self.element(name.bytes, list.line);
            pattern = list.elements.iter().map(element).collect();
        }
        let uid = match context.uid.map(|word| word.bytes) {
            None | Some(b"all") => Uid::All,
            Some(b"root") => Uid::Root,
            Some(b"user") => Uid::User,
            Some(_) => Uid::Variable,
        };
        policy::Context {
            pattern,
            uid,
            gid: sort(context.gid),
            namespace: sort(context.namespace),
        }
    }

    fn element(&mut self, name: &[u8], line: u32) -> Element {
        if name == b"all" {
            return Element::All;
        }
        // "Identifiers have a `|` and names don't."
        if name.contains(&b'|') {
            let number = self.functions.get(name).copied();
            return Element::Function(self.found(number, line));
        }
        let number = self.subject_domains.get(name).copied();
        Element::Domain(self.found(number, line))
    }
}
