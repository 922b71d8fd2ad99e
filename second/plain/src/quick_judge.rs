//! The judge once more, as it is written for speed: on the table's words as they
//! stand, docs/TABLE.md, with nothing decoded and nothing allocated.
//!
//! Entries are gone through twice. The first pass looks for the lowest entry that
//! matches and asks for no grant; the second goes on from there, asks for the grant
//! first, and matches only what grants. `bench` holds the proved judge beside it.

use crate::judge::{Event, Operation, Verdict, FRAMES};
use crate::refusal::{ALLOCATION, NOT_WELL_FORMED, OPERATION, STACK};
use crate::table::{
    well_formed, CALL_AT, DESCRIPTORS_AT, DESCRIPTOR_GRANT_AT, DESCRIPTOR_WORDS, DOMAIN_WORDS_AT,
    ENTRIES_AT, ENTRY_WORDS, FUNCTIONS_AT, GID_AT, NAMESPACE_AT, OBJECTS_AT, PATTERN_AT, READS_AT,
    RETURN_AT, SUBJECT_AT, TABLE_WORDS, UID_AT, UNUSED_AT, WRITES_AT,
};

/// Where the head counts objects, functions and entries.
const OBJECTS: usize = 3;
const FUNCTIONS: usize = 4;
const ENTRIES: usize = 5;

/// The word of `all` in a pattern.
const ALL: u16 = 0;

/// Where a context ends, in an entry and in a descriptor.
const CONTEXT_WORDS: usize = 20;

type Entry = [u16; ENTRY_WORDS];
type Descriptor = [u16; DESCRIPTOR_WORDS];

/// The judge with a test of the table before it: answers as `judge::judge` does.
pub fn judge(table: &[u16], operation: u16, target: u16, event: &Event<'_>) -> Verdict {
    match well_formed(table) {
        false => Verdict::Refused(NOT_WELL_FORMED),
        true => judge_known(table, operation, target, event),
    }
}

/// The verdict under a table that is known to be well formed; under any other it
/// is anything, or a panic.
pub fn judge_known(table: &[u16], operation: u16, target: u16, event: &Event<'_>) -> Verdict {
    let Some(table) = table.first_chunk() else {
        return Verdict::Refused(NOT_WELL_FORMED);
    };
    let Some(&top) = event.stack.last() else {
        return Verdict::Refused(STACK);
    };
    if event.stack.len() > FRAMES {
        return Verdict::Refused(STACK);
    }
    if event.allocation.len() > FRAMES {
        return Verdict::Refused(ALLOCATION);
    }
    match Operation::of(operation) {
        None => Verdict::Refused(OPERATION),
        Some(operation) => verdict(table, operation, target, top, event),
    }
}

fn verdict(
    table: &[u16; TABLE_WORDS],
    operation: Operation,
    target: u16,
    top: u16,
    event: &Event<'_>,
) -> Verdict {
    let functions = &table[FUNCTIONS_AT..ENTRIES_AT][..count(table, FUNCTIONS)];
    let objects = &table[OBJECTS_AT..FUNCTIONS_AT][..count(table, OBJECTS)];
    let Some(&subject) = functions.get(usize::from(top)) else {
        return Verdict::Violation(1);
    };
    let code_at = code_at(operation);
    let members = if code_at.is_some() {
        functions
    } else {
        objects
    };
    let Some(&domain) = members.get(usize::from(target)) else {
        return Verdict::Violation(2);
    };
    if code_at.is_some() && domain == subject {
        return Verdict::Inside;
    }
    let entries = table[ENTRIES_AT..DESCRIPTORS_AT].as_chunks().0;
    let asked = Asked {
        functions,
        entries: &entries[..count(table, ENTRIES)],
        subject,
        stack: event.stack,
        uids: uids(event.uid, event.uid),
    };
    let Some(first) = asked.first_match() else {
        return Verdict::Violation(3);
    };
    let allowing = match code_at {
        Some(place) => asked.code_after(first, Grant::at(place, domain)),
        None => {
            let object = Object::of(event, domain);
            asked.data_after(first, table, operation == Operation::Write, &object)
        }
    };
    allowing.map_or(Verdict::Violation(4), |entry| {
        Verdict::Allowed(entry as u16)
    })
}

/// Where an entry grants a call or return.
fn code_at(operation: Operation) -> Option<usize> {
    match operation {
        Operation::Call => Some(CALL_AT),
        Operation::Return => Some(RETURN_AT),
        Operation::Read | Operation::Write => None,
    }
}

fn count(table: &[u16; TABLE_WORDS], place: usize) -> usize {
    table[place].into()
}

/// What entries are asked.
struct Asked<'a> {
    functions: &'a [u16],
    entries: &'a [Entry],
    /// The top frame's domain.
    subject: u16,
    stack: &'a [u16],
    uids: Fitting,
}

impl Asked<'_> {
    /// The lowest entry that matches, whatever it grants.
    fn first_match(&self) -> Option<usize> {
        self.entries.iter().position(|entry| self.matches(entry))
    }

    /// The first entry from one on that grants a call or return and matches.
    fn code_after(&self, from: usize, grant: Grant) -> Option<usize> {
        let allows = |entry| grant.holds(entry) && self.matches(entry);
        let after = self.entries[from..].iter().position(allows)?;
        Some(from + after)
    }

    /// The first entry from one on that grants a read or write and matches.
    fn data_after(
        &self,
        from: usize,
        table: &[u16; TABLE_WORDS],
        is_write: bool,
        object: &Object<'_>,
    ) -> Option<usize> {
        let descriptors: &[Descriptor] = table[DESCRIPTORS_AT..UNUSED_AT].as_chunks().0;
        let (before, entries) = self.entries.split_at(from);
        let mut first: usize = before.iter().map(own_descriptors).sum();
        for (after, entry) in entries.iter().enumerate() {
            let past = first + own_descriptors(entry);
            if entry[SUBJECT_AT] == self.subject {
                let writes_at = first + usize::from(entry[READS_AT]);
                let own = match is_write {
                    true => &descriptors[writes_at..past],
                    false => &descriptors[first..writes_at],
                };
                let grants = |descriptor| object.is_granted(self.functions, descriptor);
                if own.iter().any(grants) && self.matches(entry) {
                    return Some(from + after);
                }
            }
            first = past;
        }
        None
    }

    /// Any gid fits an entry, and any namespace.
    fn matches(&self, entry: &Entry) -> bool {
        entry[SUBJECT_AT] == self.subject
            && fits(self.uids, entry[UID_AT])
            && matches(self.functions, pattern(entry), self.stack)
    }
}

/// How many descriptors an entry has.
fn own_descriptors(entry: &Entry) -> usize {
    usize::from(entry[READS_AT]) + usize::from(entry[WRITES_AT])
}

/// The elements of the context that a block of words begins with.
fn pattern(block: &[u16]) -> &[u16] {
    &block[PATTERN_AT..CONTEXT_WORDS][..usize::from(block[0])]
}

// ---- Grants

/// Where the words of a block grant one domain.
#[derive(Clone, Copy)]
struct Grant {
    /// The word that grants every domain.
    all_at: usize,
    /// The word that has the domain's bit.
    word_at: usize,
    bit: u16,
}

impl Grant {
    fn at(place: usize, domain: u16) -> Grant {
        Grant {
            all_at: place,
            word_at: place + 1 + usize::from(domain / 16),
            bit: 1 << (domain % 16),
        }
    }

    fn holds<const WORDS: usize>(self, block: &[u16; WORDS]) -> bool {
        block[self.all_at] | block[self.word_at] & self.bit != 0
    }
}

/// The object of a read or write, as descriptors are asked for it.
struct Object<'e> {
    grant: Grant,
    /// Empty for a static object.
    allocation: &'e [u16],
    uids: Fitting,
    gids: Fitting,
    namespaces: Fitting,
}

impl<'e> Object<'e> {
    fn of(event: &Event<'e>, domain: u16) -> Object<'e> {
        Object {
            grant: Grant::at(DESCRIPTOR_GRANT_AT, domain),
            allocation: event.allocation,
            uids: uids(event.allocation_uid, event.uid),
            gids: numbers(event.allocation_gid, event.gid),
            namespaces: numbers(event.allocation_namespace, event.namespace),
        }
    }

    fn is_granted(&self, functions: &[u16], descriptor: &Descriptor) -> bool {
        self.grant.holds(descriptor) && self.is_fit(functions, descriptor)
    }

    /// A static object asks for `all` everywhere, whose word is 0 as unused ones
    /// are.
    fn is_fit(&self, functions: &[u16], descriptor: &Descriptor) -> bool {
        if self.allocation.is_empty() {
            let words = &descriptor[UID_AT..CONTEXT_WORDS];
            return words.iter().fold(0, |all, word| all | word) == 0;
        }
        fits(self.uids, descriptor[UID_AT])
            && fits(self.gids, descriptor[GID_AT])
            && fits(self.namespaces, descriptor[NAMESPACE_AT])
            && matches(functions, pattern(descriptor), self.allocation)
    }
}

// ---- Numbers

/// The sorts that a number fits: sort s is bit s.
type Fitting = u16;

fn fits(fitting: Fitting, sort: u16) -> bool {
    fitting >> sort & 1 == 1
}

/// `all`, a variable that is bound to a number, `root`, `user`.
fn uids(uid: u32, bound: u32) -> Fitting {
    numbers(uid, bound) | u16::from(uid == 0) << 2 | u16::from(uid != 0) << 3
}

/// `all`, a variable that is bound to a number.
fn numbers(number: u32, bound: u32) -> Fitting {
    1 | u16::from(number == bound) << 1
}

// ---- Patterns

/// Whether a pattern matches a whole stack: what stands behind its last `all` is
/// held against the top, from there downwards, then the rest against the frames
/// below.
fn matches(functions: &[u16], pattern: &[u16], stack: &[u16]) -> bool {
    let (mut pattern, mut stack) = (pattern, stack);
    while let [elements @ .., element] = pattern {
        if *element == ALL {
            return matches_below(functions, pattern, stack);
        }
        match stack {
            [frames @ .., frame] if meets(functions, *element, *frame) => stack = frames,
            _ => return false,
        }
        pattern = elements;
    }
    stack.is_empty()
}

/// The same for a pattern whose last element is `all`: what stands before its first
/// one is held against the base.
fn matches_below(functions: &[u16], pattern: &[u16], stack: &[u16]) -> bool {
    let (mut pattern, mut stack) = (pattern, stack);
    while let [element, elements @ ..] = pattern {
        if *element == ALL {
            return has_runs(functions, pattern, stack);
        }
        match stack {
            [frame, frames @ ..] if meets(functions, *element, *frame) => stack = frames,
            _ => return false,
        }
        pattern = elements;
    }
    true
}

/// The same for a pattern whose first and last elements are `all`: each run of
/// others is taken at its leftmost place, since the `all` behind it swallows the
/// rest.
fn has_runs(functions: &[u16], pattern: &[u16], stack: &[u16]) -> bool {
    let (mut pattern, mut stack) = (pattern, stack);
    while let Some(start) = pattern.iter().position(|&element| element != ALL) {
        let begun = &pattern[start..];
        let end = begun.iter().position(|&element| element == ALL);
        let (run, elements) = begun.split_at(end.unwrap_or(begun.len()));
        match behind(functions, run, stack) {
            None => return false,
            Some(frames) => stack = frames,
        }
        pattern = elements;
    }
    true
}

/// The frames behind the leftmost place of a run.
fn behind<'s>(functions: &[u16], run: &[u16], stack: &'s [u16]) -> Option<&'s [u16]> {
    let stands = |frames: &[u16]| {
        let mut pairs = run.iter().zip(frames);
        pairs.all(|(&element, &frame)| meets(functions, element, frame))
    };
    let place = stack.windows(run.len()).position(stands)?;
    Some(&stack[place + run.len()..])
}

/// Whether an element that is not `all` meets one frame. A domain is looked up
/// here; an unlisted frame lies in none.
fn meets(functions: &[u16], element: u16, frame: u16) -> bool {
    if element < DOMAIN_WORDS_AT {
        return element - 1 == frame;
    }
    functions.get(usize::from(frame)) == Some(&(element - DOMAIN_WORDS_AT))
}
