//! All names of a text, as a list of words, and the number of a name in it.

use crate::answer::Answer;
use crate::file::{Domain, File, Word};
use crate::policy::{DOMAINS, ENTRIES, MEMBERS};
use crate::reader::accepted;
use crate::refusal::Refusal;

/// What a name is the name of, with its number in `include/dovetenon.h`.
#[derive(Clone, Copy, Debug, PartialEq, Eq)]
pub enum Kind {
    ObjectDomain = 1,
    Object = 2,
    SubjectDomain = 3,
    Function = 4,
    Entry = 5,
}

/// Each name takes four words: kind, line, start, how many bytes.
pub const FOUR: usize = 4;

/// As many words as any text's list takes.
pub const LIST_WORDS: usize = FOUR * (2 * DOMAINS + 2 * MEMBERS + ENTRIES);

/// A domain, an object, a function or an entry. The line is its own: an
/// entry's name stands on another.
#[derive(Clone, Copy, Debug, PartialEq, Eq)]
pub struct Named<'t> {
    pub kind: Kind,
    pub line: u32,
    pub name: Word<'t>,
}

impl<'t> Named<'t> {
    fn of(kind: Kind, name: Word<'t>) -> Named<'t> {
        let line = name.line;
        Named { kind, line, name }
    }

    fn four(self) -> [u32; FOUR] {
        // A text that is accepted has at most 65,536 bytes.
        let (start, bytes) = (self.name.start as u32, self.name.bytes.len() as u32);
        [self.kind as u32, self.line, start, bytes]
    }
}

/// All that a file names, in file order: "of lines, and in a line's list from
/// left to right".
pub fn named<'t>(file: &File<'t>) -> Vec<Named<'t>> {
    let mut all = Vec::new();
    map(&mut all, &file.object_map, Kind::ObjectDomain, Kind::Object);
    let functions = Kind::Function;
    map(&mut all, &file.subject_map, Kind::SubjectDomain, functions);
    all.extend(file.privileges.iter().map(|entry| Named {
        kind: Kind::Entry,
        line: entry.line,
        name: entry.subject,
    }));
    all
}

fn map<'t>(all: &mut Vec<Named<'t>>, map: &[Domain<'t>], domains: Kind, members: Kind) {
    for domain in map {
        all.push(Named::of(domains, domain.name));
        let names = domain.members.elements.iter();
        all.extend(names.map(|name| Named::of(members, *name)));
    }
}

/// The words of a text's list; refusals 2 to 11.
pub fn listed(text: &[u8]) -> Result<Vec<u32>, Refusal> {
    let (file, _) = accepted(text)?;
    Ok(named(&file).into_iter().flat_map(Named::four).collect())
}

/// Writes the list of a text, if there is room for all of it, and gives how
/// many words it takes, "whatever was lent". Words past it never change.
pub fn list(text: &[u8], list: &mut [u32]) -> Result<usize, Refusal> {
    let words = listed(text)?;
    if let Some(front) = list.get_mut(..words.len()) {
        front.copy_from_slice(&words);
    }
    Ok(words.len())
}

/// What is answered: a refusal with its number and line, or class 2 with how
/// many words the list takes.
pub fn answer(listing: Result<usize, Refusal>) -> Answer {
    Refusal::answer_or_size(listing)
}

/// The number of the first name of a kind that is this one, counted among those
/// of its kind; "where none does, how many of the kind there are". Text and
/// words may be any.
pub fn find(text: &[u8], list: &[u32], kind: u32, name: &[u8]) -> usize {
    let of_kind = || list.chunks_exact(FOUR).filter(|four| four[0] == kind);
    let first = of_kind().position(|four| stretch(text, four) == name);
    first.unwrap_or_else(|| of_kind().count())
}

/// The stretch of the text that a four names, "cut where the text ends"; one
/// "that starts behind the text's end is empty".
pub fn stretch<'t>(text: &'t [u8], four: &[u32]) -> &'t [u8] {
    let (start, bytes) = (four[2] as usize, four[3] as usize);
    let rest = text.get(start..).unwrap_or_default();
    &rest[..rest.len().min(bytes)]
}
