//! Searches for the number of a name: in the list of a text, and in any words
//! with any text. Those that are stored, each with its text and list.

use crate::dice::Dice;
use crate::texts;
use second::names::{find, listed, stretch, FOUR};
use second::EXAMPLE;

/// Asks for the number of a name among those of a kind.
#[derive(Clone, Debug, PartialEq, Eq)]
pub struct Search {
    pub kind: u32,
    pub name: Vec<u8>,
}

/// A text, a list, and what is searched for in them.
#[derive(Clone, Debug)]
pub struct Finding {
    pub text: Vec<u8>,
    pub list: Vec<u32>,
    pub searches: Vec<Search>,
}

impl Finding {
    /// What the plain search says.
    pub fn answer(&self, search: &Search) -> usize {
        find(&self.text, &self.list, search.kind, &search.name)
    }
}

/// The kinds, with one that is none on both sides.
const KINDS: [u32; 7] = [0, 1, 2, 3, 4, 5, 6];

/// Kinds that are none; cut to 8 or 16 bits the first two would be 1.
const NO_KINDS: [u32; 3] = [257, 65_537, u32::MAX];

/// What may lie behind the end of a text: a byte that no text has that is
/// accepted.
const BEHIND: u8 = 0xCD;

/// Searches in any list.
pub fn finding(dice: &mut Dice) -> Finding {
    match dice.percent(50) {
        true => {
            let text = texts::good(dice);
            in_text(dice, text)
        }
        false => {
            let text = any_text(dice);
            in_words(dice, text)
        }
    }
}

/// Searches in the list of a text, or in any words where it is refused.
pub fn in_text(dice: &mut Dice, text: Vec<u8>) -> Finding {
    let Ok(mut list) = listed(&text) else {
        return in_words(dice, text);
    };
    let of_kind = |kind: u32| list.chunks_exact(FOUR).filter(move |four| four[0] == kind);
    let mut names = vec![Vec::new(), b"Nobody".to_vec()];
    for kind in KINDS {
        let place = dice.below(of_kind(kind).count());
        let four = of_kind(kind).nth(place);
        names.extend(four.into_iter().flat_map(|four| about(&text, four)));
    }
    uneven(dice, &mut list);
    searches(text, list, names)
}

/// Searches in any words.
pub fn in_words(dice: &mut Dice, text: Vec<u8>) -> Finding {
    let fours = dice.below(9);
    let mut list: Vec<u32> = (0..fours).flat_map(|_| four(dice, text.len())).collect();
    let longer = [&text[..], &[BEHIND]].concat();
    let mut names = vec![Vec::new(), b"a".to_vec(), text.clone(), longer];
    for four in list.chunks_exact(FOUR) {
        // A name has few bytes, whatever the four says.
        names.extend(
            about(&text, four)
                .into_iter()
                .filter(|name| name.len() < 200),
        );
    }
    names.sort();
    names.dedup();
    uneven(dice, &mut list);
    searches(text, list, names)
}

/// Each of these names among each kind, and one of them among those that are
/// none.
fn searches(text: Vec<u8>, list: Vec<u32>, names: Vec<Vec<u8>>) -> Finding {
    let last = names.last().cloned().unwrap_or_default();
    let of_kinds = |name: Vec<u8>| KINDS.map(|kind| (kind, name.clone()));
    let asked = names.into_iter().flat_map(of_kinds);
    let asked = asked.chain(NO_KINDS.map(|kind| (kind, last.clone())));
    let searches = asked.map(|(kind, name)| Search { kind, name }).collect();
    Finding {
        text,
        list,
        searches,
    }
}

/// The name of a four; a front of it, and it with one byte more: the one that
/// follows in the text, or what may lie behind its end.
fn about(text: &[u8], four: &[u32]) -> [Vec<u8>; 3] {
    let name = stretch(text, four).to_vec();
    let next = text.get(four[2] as usize + name.len());
    let front = name[..name.len().saturating_sub(1)].to_vec();
    let longer = [&name[..], &[*next.unwrap_or(&BEHIND)]].concat();
    [name, front, longer]
}

/// Sometimes cuts off one to three words, or adds so many.
fn uneven(dice: &mut Dice, list: &mut Vec<u32>) {
    let words = dice.from_to(1, FOUR - 1);
    match dice.below(4) {
        0 => list.truncate(list.len().saturating_sub(words)),
        // Looked at, they would be one more of kind 1.
        1 => list.extend([1, 1, 0].into_iter().take(words)),
        _ => {}
    }
}

/// Four words that a list may hold, or may not.
fn four(dice: &mut Dice, length: usize) -> [u32; FOUR] {
    let kind = *dice.pick(&[1, 1, 1, 2, 2, 3, 4, 5, 0, 6, 257, 65_537, u32::MAX]);
    let line = dice.next() as u32;
    let start = start(dice, length as u32);
    [kind, line, start, bytes(dice, length as u32, start)]
}

/// In the text, about its end, or far behind it; some that would be in it if
/// they were cut to 16 bits.
fn start(dice: &mut Dice, length: u32) -> u32 {
    let inside = dice.below(length as usize + 1) as u32;
    match dice.below(8) {
        0 => 0,
        1..=3 => inside,
        4 | 5 => (length + dice.below(5) as u32).saturating_sub(2),
        6 => inside + 65_536,
        _ => *dice.pick(&[u32::MAX, u32::MAX - 1, 1 << 31]),
    }
}

/// Few, about as many as are left in the text, or far more; some that end in
/// the text if the end is cut to 32 bits, or they are to 16.
fn bytes(dice: &mut Dice, length: u32, start: u32) -> u32 {
    let few = dice.below(5) as u32;
    match dice.below(8) {
        0..=3 => few,
        4 | 5 => (length.saturating_sub(start) + few).saturating_sub(2),
        6 => *dice.pick(&[65_536 + few, 0u32.wrapping_sub(start).wrapping_add(few)]),
        _ => *dice.pick(&[u32::MAX, u32::MAX - 1, 1 << 31]),
    }
}

/// Few bytes, so that stretches are often equal; any bytes; or any text.
fn any_text(dice: &mut Dice) -> Vec<u8> {
    match dice.below(4) {
        0 => texts::text(dice),
        1 => short_text(dice, |dice| dice.next() as u8),
        _ => short_text(dice, |dice| *dice.pick(b"aab")),
    }
}

fn short_text(dice: &mut Dice, byte: fn(&mut Dice) -> u8) -> Vec<u8> {
    (0..dice.below(12)).map(|_| byte(dice)).collect()
}

/// How many lists of any words are stored.
const STORED_LISTS: u64 = 12;

/// The stored searches.
pub fn all(seed: u64) -> Vec<Finding> {
    let mut all = example();
    for case in 0..STORED_LISTS {
        let dice = &mut Dice::of_case(seed, case);
        let text = short_text(dice, |dice| *dice.pick(b"aab"));
        let mut finding = in_words(dice, text);
        // The kinds that such a list has most of.
        let often = |search: &Search| matches!(search.kind, 1 | 2);
        finding.searches.retain(often);
        all.push(finding);
    }
    all
}

/// Document 01's example: each of its names, among its kind and all others; no
/// name; some that are not there. Then a list one word short, one of a word
/// more, and none at all.
fn example() -> Vec<Finding> {
    let text = EXAMPLE.as_bytes();
    let list = listed(text).unwrap_or_default();
    let mut names: Vec<&[u8]> = list
        .chunks_exact(FOUR)
        .map(|four| stretch(text, four))
        .collect();
    names.extend([&b""[..], b"Mete", b"Meter\n", b"main", b"b.c|su"]);
    names.sort();
    names.dedup();
    let last = list.chunks_exact(FOUR).last().map_or(0, |four| four[0]);
    let finding = |list: &[u32], searches| Finding {
        text: text.to_vec(),
        list: list.to_vec(),
        searches,
    };
    let search = |kind, name: &[u8]| Search {
        kind,
        name: name.to_vec(),
    };
    let each = |name: &&[u8]| KINDS.map(|kind| search(kind, name));
    let bill = vec![search(last, b"Bill")];
    let short = &list[..list.len().saturating_sub(1)];
    vec![
        finding(&list, names.iter().flat_map(each).collect()),
        finding(&list, NO_KINDS.map(|kind| search(kind, b"Meter")).into()),
        finding(short, bill.clone()),
        finding(&[&list[..], &[last]].concat(), bill.clone()),
        finding(&[], bill),
    ]
}
