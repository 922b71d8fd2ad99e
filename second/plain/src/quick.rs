//! The reader and the filler once more, as they are written for speed: one pass
//! over the text, names found in hash maps, every value put into its words and
//! its filled line at once.
//!
//! It takes good texts alone. Any other it leaves to `reader::read` and
//! `filler::fill`, which know the number and the line. `bench` holds the proved
//! functions beside it.

use crate::filler;
use crate::lookup::Map;
use crate::policy::{DESCRIPTORS, DOMAINS, ELEMENTS, ENTRIES, MEMBERS};
use crate::reader;
use crate::refusal::Refusal;
use crate::scalars;
use crate::table::{
    CALL_AT, DESCRIPTORS_AT, DESCRIPTOR_GRANT_AT, DESCRIPTOR_WORDS, DOMAIN_WORDS_AT, ENTRIES_AT,
    ENTRY_WORDS, FUNCTIONS_AT, GID_AT, MARK, NAMESPACE_AT, OBJECTS_AT, PATTERN_AT, READS_AT,
    RETURN_AT, SUBJECT_AT, TABLE_WORDS, UID_AT, WRITES_AT,
};
use crate::text::TEXT_LIMIT;
use std::collections::{HashMap, HashSet};

/// Writes the table of a text and answers as `reader::read` does.
pub fn read(text: &[u8], table: &mut [u16]) -> Result<(), Refusal> {
    if let Some(words) = table.get_mut(..TABLE_WORDS) {
        words.fill(0);
        if takes(text, words) {
            return Ok(());
        }
    }
    reader::read(text, table)
}

/// Writes the filled text and answers as `filler::fill` does. The lines are kept
/// beside the output until all is known to be good, since on refusal that is
/// untouched.
pub fn fill(text: &[u8], output: &mut [u8]) -> Result<usize, Refusal> {
    let mut filled = Vec::with_capacity(TEXT_LIMIT);
    if takes_into(text, &mut vec![0; TABLE_WORDS], &mut filled) {
        return filler::write(&filled, output);
    }
    filler::fill(text, output)
}

/// Whether the reader takes a text. If so, its table stands in the words, zero
/// before; if not, they hold anything.
pub fn takes(text: &[u8], words: &mut [u16]) -> bool {
    takes_into(text, words, &mut NotFilled)
}

/// The same, and its filled text goes to the lines.
fn takes_into(text: &[u8], words: &mut [u16], filled: &mut impl Lines) -> bool {
    let mut pass = Pass {
        left: text,
        words,
        filled,
        domains: HashMap::new(),
        objects: HashSet::with_capacity(MEMBERS),
        functions: 0,
        elements: HashMap::with_capacity(MEMBERS + DOMAINS),
        principals: HashSet::with_capacity(ENTRIES),
        descriptors: 0,
    };
    text.len() <= TEXT_LIMIT && pass.file().is_some()
}

/// The word of a uid, gid or namespace that is a variable.
const VARIABLE: u16 = 1;

/// What two entries must not share: the context and the subject of an entry,
/// as its first words hold them.
type Principal = [u16; SUBJECT_AT + 1];

/// The keys of a context after its pattern, with the place of each one's sort.
const KEYS: [(&[u8], usize); 3] = [
    (b"      uid:", UID_AT),
    (b"      gid:", GID_AT),
    (b"      namespace:", NAMESPACE_AT),
];

/// The values of a context, written or not.
struct Context<'t> {
    call_context: &'t [u8],
    /// Those of the keys above, in their order.
    values: [&'t [u8]; 3],
}

/// Where the lines of the filled text go.
trait Lines {
    /// A key and its value; without one the line ends at the colon.
    fn line(&mut self, key: &[u8], value: &[u8]);
}

/// For the reader, which wants none.
struct NotFilled;

impl Lines for NotFilled {
    fn line(&mut self, _: &[u8], _: &[u8]) {}
}

impl Lines for Vec<u8> {
    fn line(&mut self, key: &[u8], value: &[u8]) {
        self.extend_from_slice(key);
        if !value.is_empty() {
            self.push(b' ');
            self.extend_from_slice(value);
        }
        self.push(b'\n');
    }
}

/// The place behind the end of a line, LF or CR and LF, if one stands here.
fn behind_end(bytes: &[u8], end: usize) -> Option<usize> {
    match bytes.get(end)? {
        b'\n' => Some(end + 1),
        b'\r' if bytes.get(end + 1) == Some(&b'\n') => Some(end + 2),
        _ => None,
    }
}

/// How far the text is read, and what is known by then. Nothing is at fault as
/// long as every function gives something.
struct Pass<'t, 'w, L> {
    left: &'t [u8],
    words: &'w mut [u16],
    filled: &'w mut L,
    /// The domains of both maps, whose names must differ.
    domains: HashMap<&'t [u8], (Map, u16)>,
    objects: HashSet<&'t [u8]>,
    /// How many functions there are.
    functions: usize,
    /// The word of each function and each subject domain in a pattern. No name
    /// is both: functions have a `|`.
    elements: HashMap<&'t [u8], u16>,
    principals: HashSet<Principal>,
    descriptors: usize,
}

impl<'t, L: Lines> Pass<'t, '_, L> {
    fn file(&mut self) -> Option<()> {
        self.skip();
        let object_domains = self.map(b"object_map:", Map::Objects)?;
        let subject_domains = self.map(b"subject_map:", Map::Subjects)?;
        let entries = self.privileges()?;
        let (objects, functions) = (self.objects.len(), self.functions);
        let counts = [object_domains, subject_domains, objects, functions, entries];
        self.words[0] = MARK;
        for (place, count) in counts.into_iter().enumerate() {
            self.words[1 + place] = count as u16;
        }
        self.left.is_empty().then_some(())
    }

    // ---- Lines

    /// Goes past lines that do not count. One that has a bad byte or no end
    /// stays, and nothing takes it.
    fn skip(&mut self) {
        loop {
            let column = self.left.iter().take_while(|&&byte| byte == b' ').count();
            let end = match self.left.get(column) {
                Some(b'#') => {
                    let bad = |byte: &u8| !(0x20..=0x7E).contains(byte);
                    self.left.iter().position(bad).unwrap_or(self.left.len())
                }
                Some(b'\r' | b'\n') => column,
                _ => return,
            };
            match behind_end(self.left, end) {
                Some(behind) => self.left = &self.left[behind..],
                None => return,
            }
        }
    }

    /// Takes these bytes, if they are next.
    fn takes(&mut self, bytes: &[u8]) -> bool {
        match self.left.strip_prefix(bytes) {
            Some(left) => {
                self.left = left;
                true
            }
            None => false,
        }
    }

    fn take(&mut self, bytes: &[u8]) -> Option<()> {
        self.takes(bytes).then_some(())
    }

    /// Takes these bytes and the line's end, if they are next. The end is looked
    /// for first: mostly it is not there.
    fn ends(&mut self, bytes: &[u8]) -> bool {
        match behind_end(self.left, bytes.len()) {
            Some(behind) if self.left.starts_with(bytes) => {
                self.next_line(behind);
                true
            }
            _ => false,
        }
    }

    fn end(&mut self, bytes: &[u8]) -> Option<()> {
        self.ends(bytes).then_some(())
    }

    /// Goes on behind a line's end.
    fn next_line(&mut self, behind: usize) {
        self.left = &self.left[behind..];
        self.skip();
    }

    /// A space and the rest of the line; no scalar takes a CR that is left in it.
    fn scalar(&mut self) -> Option<&'t [u8]> {
        self.take(b" ")?;
        let lf = self.left.iter().position(|&byte| byte == b'\n')?;
        let line = &self.left[..lf];
        self.next_line(lf + 1);
        Some(line.strip_suffix(b"\r").unwrap_or(line))
    }

    /// A space, a list, whose elements are each looked at, and the line's end.
    fn list(
        &mut self,
        mut each: impl FnMut(&mut Self, &'t [u8]) -> Option<()>,
    ) -> Option<&'t [u8]> {
        self.take(b" ")?;
        let start = self.left;
        self.take(b"[")?;
        let mut has_more = !self.left.starts_with(b"]");
        while has_more {
            let is_end = |&byte: &u8| byte == b',' || byte == b']';
            let (element, left) = self.left.split_at(self.left.iter().position(is_end)?);
            self.left = left;
            each(self, element)?;
            has_more = self.takes(b", ");
        }
        let end = start.len() - self.left.len() + 1;
        self.end(b"]")?;
        Some(&start[..end])
    }

    // ---- Maps

    /// A top-level key: `[]` or items. Tells whether items follow.
    fn top(&mut self, key: &[u8]) -> Option<bool> {
        self.take(key)?;
        if self.ends(b" []") {
            self.filled.line(key, b"[]");
            return Some(false);
        }
        self.end(b"")?;
        self.filled.line(key, b"");
        self.left.starts_with(b"- ").then_some(true)
    }

    /// A map; how many domains it has.
    fn map(&mut self, key: &[u8], map: Map) -> Option<usize> {
        let mut count = 0;
        if self.top(key)? {
            while self.takes(b"- name:") {
                let name = self.scalar()?;
                self.filled.line(b"- name:", name);
                let is_new = scalars::is_domain_name(name)
                    && self.domains.insert(name, (map, count as u16)).is_none();
                if !is_new || count == DOMAINS {
                    return None;
                }
                if map == Map::Subjects {
                    self.elements.insert(name, DOMAIN_WORDS_AT + count as u16);
                }
                self.members(map, count as u16)?;
                count += 1;
            }
        }
        Some(count)
    }

    fn members(&mut self, map: Map, domain: u16) -> Option<()> {
        let key: &[u8] = match map {
            Map::Objects => b"  objects:",
            Map::Subjects => b"  subjects:",
        };
        self.take(key)?;
        let list = self.list(|pass, name| match map {
            Map::Objects => pass.object(name, domain),
            Map::Subjects => pass.function(name, domain),
        })?;
        self.filled.line(key, list);
        Some(())
    }

    fn object(&mut self, name: &'t [u8], domain: u16) -> Option<()> {
        let number = self.objects.len();
        let is_new = scalars::is_object_identifier(name) && self.objects.insert(name);
        if !is_new || number == MEMBERS {
            return None;
        }
        self.words[OBJECTS_AT + number] = domain;
        Some(())
    }

    fn function(&mut self, name: &'t [u8], domain: u16) -> Option<()> {
        let number = self.functions;
        let is_new = scalars::is_subject_identifier(name)
            && self.elements.insert(name, number as u16 + 1).is_none();
        if !is_new || number == MEMBERS {
            return None;
        }
        self.words[FUNCTIONS_AT + number] = domain;
        self.functions += 1;
        Some(())
    }

    // ---- Entries

    /// The entries; how many there are.
    fn privileges(&mut self) -> Option<usize> {
        let mut count = 0;
        if self.top(b"privileges:")? {
            while self.ends(b"- principal:") {
                if count == ENTRIES {
                    return None;
                }
                self.entry(ENTRIES_AT + ENTRY_WORDS * count)?;
                count += 1;
            }
        }
        Some(count)
    }

    /// An entry, into its block of words.
    fn entry(&mut self, at: usize) -> Option<()> {
        self.take(b"    subject:")?;
        let subject = self.scalar()?;
        self.filled.line(b"- principal:", b"");
        self.filled.line(b"    subject:", subject);
        self.words[at + SUBJECT_AT] = self.domain(Map::Subjects, subject)?;
        let context = self.context(at, b"    execution_context:")?;
        let block = &self.words[at..=at + SUBJECT_AT];
        if !self.principals.insert(block.try_into().ok()?) {
            return None;
        }
        self.grant(at + CALL_AT, b"  can_call:", Map::Subjects)?;
        self.grant(at + RETURN_AT, b"  can_return:", Map::Subjects)?;
        self.words[at + READS_AT] = self.access(b"  can_read:", &context)?;
        self.words[at + WRITES_AT] = self.access(b"  can_write:", &context)?;
        Some(())
    }

    /// The number of a domain that this map has.
    fn domain(&self, map: Map, name: &[u8]) -> Option<u16> {
        let (of, number) = *self.domains.get(name)?;
        (of == map).then_some(number)
    }

    /// A grant, into its words; omitted it means `all`.
    fn grant(&mut self, at: usize, key: &[u8], map: Map) -> Option<()> {
        let value: &[u8] = if !self.takes(key) || self.ends(b" all") {
            self.words[at] = 1;
            b"all"
        } else if self.ends(b"") {
            b"[]"
        } else {
            self.list(|pass, name| {
                let domain = pass.domain(map, name)?;
                let word = &mut pass.words[at + 1 + usize::from(domain / 16)];
                let bit = 1 << (domain % 16);
                let is_new = *word & bit == 0;
                *word |= bit;
                is_new.then_some(())
            })?
        };
        self.filled.line(key, value);
        Some(())
    }

    /// A `can_read` or `can_write`; how many descriptors it has.
    fn access(&mut self, key: &[u8], bound: &Context<'t>) -> Option<u16> {
        if !self.takes(key) || self.ends(b" all") {
            let at = self.descriptor()?;
            self.words[at] = 1;
            self.words[at + DESCRIPTOR_GRANT_AT] = 1;
            self.filled.line(key, b"all");
            return Some(1);
        }
        let is_none = self.ends(b" []") || {
            self.end(b"")?;
            !self.left.starts_with(b"  - ")
        };
        if is_none {
            self.filled.line(key, b"[]");
            return Some(0);
        }
        self.filled.line(key, b"");
        self.items(bound)
    }

    /// The items of a `can_read` or `can_write`; how many there are.
    fn items(&mut self, bound: &Context<'t>) -> Option<u16> {
        let mut count = 0;
        while self.left.starts_with(b"  - ") {
            let at = self.descriptor()?;
            self.grant(at + DESCRIPTOR_GRANT_AT, b"  - objects:", Map::Objects)?;
            let used = self.context(at, b"    object_context:")?;
            for (place, (_, sort)) in KEYS.into_iter().enumerate() {
                if self.words[at + sort] == VARIABLE && used.values[place] != bound.values[place] {
                    return None;
                }
            }
            count += 1;
        }
        Some(count)
    }

    /// The block of the next descriptor.
    fn descriptor(&mut self) -> Option<usize> {
        let number = self.descriptors;
        self.descriptors += 1;
        (number < DESCRIPTORS).then_some(DESCRIPTORS_AT + DESCRIPTOR_WORDS * number)
    }

    // ---- Contexts

    /// A context, into its words.
    fn context(&mut self, at: usize, key: &[u8]) -> Option<Context<'t>> {
        let mut context = Context {
            call_context: b"[all]",
            values: [b"all"; 3],
        };
        self.words[at] = 1;
        if self.takes(key) && !self.ends(b" all") {
            self.end(b"")?;
            self.keys(at, &mut context)?;
        }
        self.filled.line(key, b"");
        self.filled
            .line(b"      call_context:", context.call_context);
        for ((key, _), value) in KEYS.into_iter().zip(context.values) {
            self.filled.line(key, value);
        }
        Some(context)
    }

    /// One or more keys of a context.
    fn keys(&mut self, at: usize, context: &mut Context<'t>) -> Option<()> {
        let start = self.left.len();
        if self.takes(b"      call_context:") {
            context.call_context = self.pattern(at)?;
        }
        for ((key, sort), value) in KEYS.into_iter().zip(&mut context.values) {
            if self.takes(key) {
                *value = self.scalar()?;
                self.words[at + sort] = match *value {
                    b"all" => 0,
                    b"root" if sort == UID_AT => 2,
                    b"user" if sort == UID_AT => 3,
                    name if scalars::is_variable(name) => VARIABLE,
                    _ => return None,
                };
            }
        }
        (self.left.len() < start).then_some(())
    }

    fn pattern(&mut self, at: usize) -> Option<&'t [u8]> {
        let mut count = 0;
        let list = self.list(|pass, name| {
            if count == ELEMENTS {
                return None;
            }
            pass.words[at + PATTERN_AT + count] = match name {
                b"all" => 0,
                _ => *pass.elements.get(name)?,
            };
            count += 1;
            Some(())
        })?;
        self.words[at] = count as u16;
        (count > 0).then_some(list)
    }
}
