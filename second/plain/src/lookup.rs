//! The name lookup.

use crate::answer::Answer;
use crate::file::{File, Word};
use crate::reader::accepted;

/// Which map a domain number belongs to, with its number in
/// `include/dovetenon.h`.
#[derive(Clone, Copy, Debug, PartialEq, Eq)]
pub enum Map {
    Objects = 1,
    Subjects = 2,
}

impl Map {
    pub fn of(number: u16) -> Option<Map> {
        let maps = [Map::Objects, Map::Subjects];
        maps.into_iter().find(|map| *map as u16 == number)
    }
}

/// The name of a domain of a file that the reader accepts.
pub fn name_in<'t>(file: &File<'t>, map: Map, domain: usize) -> Option<Word<'t>> {
    let domains = match map {
        Map::Objects => &file.object_map,
        Map::Subjects => &file.subject_map,
    };
    domains.get(domain).map(|domain| domain.name)
}

/// The name of a domain of the map with this number; none "where the reader
/// would refuse the text (2 to 11), or the number is not below that map's
/// count", and where no map has that number.
pub fn name(text: &[u8], map: u16, domain: usize) -> Option<Word<'_>> {
    let (file, _) = accepted(text).ok()?;
    name_in(&file, Map::of(map)?, domain)
}

/// "The very stretch of the lent text that holds the name": where it starts
/// and how long it is. Where there is none, "an empty stretch at the front".
pub fn lookup(text: &[u8], map: Map, domain: usize) -> (usize, usize) {
    let name = name(text, map as u16, domain);
    name.map_or((0, 0), |name| (name.start, name.bytes.len()))
}

/// What is answered: class 2 and a name's length and start, or class 1, none.
pub fn answer(name: Option<Word<'_>>) -> Answer {
    let (class, value, rest) = match name {
        // A text that is accepted has at most 65,536 bytes, a name at most 64.
        Some(name) => (2, name.bytes.len() as u16, name.start as u32),
        None => (1, 0, 0),
    };
    Answer { class, value, rest }
}
