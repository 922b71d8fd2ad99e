//! The texts that are stored for the filler, each with how many bytes of an
//! output are lent: document 01's example, a file of nothing, every field put in
//! every way, the limits of whole texts, line ends of every sort, domain names in
//! patterns, namespaces, and short texts of every sort.

use crate::dice::Dice;
use crate::draft::{Access, Context, Domain, Draft, Entry, Grant, Item};
use crate::{ends, limits, namespaces, patterns, texts, write};
use second::refusal::{
    BYTE, COUNT, EMPTY, LAYOUT, SAME_PRINCIPAL, SCALAR, TWICE, UNBOUND, UNKNOWN,
};
use second::{filled, policy_of, EXAMPLE};

/// A text, and how many bytes are lent for its filled text.
pub type Filling = (Vec<u8>, usize);

/// A text of more bytes is too long to be stored beside many.
const SHORT: usize = 500;

/// How many short texts there are.
const SHORT_TEXTS: usize = 54;

/// What a short text can be refused with: for a line of it, then by the rules
/// over the whole file.
pub const REFUSALS: [u16; 9] = [
    BYTE,
    LAYOUT,
    SCALAR,
    EMPTY,
    COUNT,
    TWICE,
    UNKNOWN,
    UNBOUND,
    SAME_PRINCIPAL,
];

pub fn all(seed: u64) -> Vec<Filling> {
    let example = EXAMPLE.as_bytes();
    let mut all: Vec<Filling> = rooms(example).map(|room| (example.to_vec(), room)).into();
    all.push(exact(write::text(&write::lines(&Draft::default()))));
    all.extend(forms().into_iter().map(exact));
    all.push(exact(limits::text(limits::LONG_FILLED, false).0));
    // With no room, so that 31 is seen to go before 30.
    all.push((limits::text(limits::LONG_FILLED, true).0, 0));
    all.push((limits::text(limits::LONG_TEXT, true).0, 0));
    all.extend(ends::stored().into_iter().map(exact));
    all.extend(patterns::stored().into_iter().map(exact));
    all.extend(namespaces::stored().into_iter().map(exact));
    all.extend((0..SHORT_TEXTS).map(|case| short(case, &mut Dice::of_case(seed, case as u64))));
    all
}

/// No room, one byte too few, just enough, and more. For a text that is
/// refused any size will do.
fn rooms(text: &[u8]) -> [usize; 4] {
    let size = filled(text).map_or(40, |filled| filled.len());
    [0, size - 1, size, size + 5]
}

fn exact(text: Vec<u8>) -> Filling {
    let [.., room, _] = rooms(&text);
    (text, room)
}

/// Every second short text is refused, with each number in turn; the others
/// have an entry.
fn short(case: usize, dice: &mut Dice) -> Filling {
    let turn = case / 2;
    let number = match case % 2 {
        0 => 0,
        _ => REFUSALS[turn % REFUSALS.len()],
    };
    let text = short_text(dice, number);
    let room = rooms(&text)[turn % 4];
    (text, room)
}

/// A short text that is refused with this number, or, where it is 0, one that
/// is taken and has an entry.
pub fn short_text(dice: &mut Dice, number: u16) -> Vec<u8> {
    let is_so = |text: &[u8]| match policy_of(text) {
        Ok(policy) => number == 0 && !policy.entries.is_empty(),
        Err(refusal) => refusal.number == number,
    };
    loop {
        let text = match number {
            0 => texts::good(dice),
            _ if texts::RULES.contains(&number) => texts::against_rules(dice),
            _ => texts::damaged(dice),
        };
        if text.len() <= SHORT && is_so(&text) {
            return text;
        }
    }
}

/// A file for each way to put a context. The other fields of its entry take
/// turns at being omitted, bare, `all`, empty, or of some value.
pub fn forms() -> Vec<Vec<u8>> {
    let item = |(place, context): (usize, _)| Item {
        // It cannot be omitted.
        objects: grants("O")[1 + place % 4].clone(),
        context,
    };
    let items = contexts().into_iter().enumerate().map(item).collect();
    let accesses = [
        Access::Omitted,
        Access::Bare,
        Access::All,
        Access::Empty,
        Access::Items(items),
    ];
    let entry = |(place, context): (usize, _)| Entry {
        subject: "S".to_string(),
        context,
        can_call: grants("S")[place % 5].clone(),
        can_return: grants("S")[(place + 2) % 5].clone(),
        can_read: accesses[place % 5].clone(),
        can_write: accesses[(place + 2) % 5].clone(),
    };
    let entries = contexts().into_iter().enumerate().map(entry);
    let text = |entry| write::text(&write::lines(&draft(entry)));
    entries.map(text).collect()
}

fn draft(entry: Entry) -> Draft {
    let domain = |name: &str, member: &str| Domain {
        name: name.to_string(),
        members: vec![member.to_string()],
    };
    Draft {
        objects: vec![domain("O", "OTHER|||")],
        subjects: vec![domain("S", "s|a")],
        entries: vec![entry],
    }
}

fn grants(name: &str) -> [Grant; 5] {
    [
        Grant::Omitted,
        Grant::Bare,
        Grant::All,
        Grant::List(Vec::new()),
        Grant::List(vec![name.to_string()]),
    ]
}

/// Omitted, `all`, or some of the four keys.
fn contexts() -> Vec<Context> {
    let keys = |some: u8| Context::Keys {
        call_context: (some & 1 != 0).then(|| vec!["s|a".to_string(), "all".to_string()]),
        values: [(2, "user"), (4, "all"), (8, "all")]
            .map(|(bit, value)| (some & bit != 0).then(|| value.to_string())),
    };
    let mut contexts = vec![Context::Omitted, Context::All];
    contexts.extend((1..16).map(keys));
    contexts
}
