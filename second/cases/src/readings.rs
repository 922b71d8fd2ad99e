//! The texts that are stored for the reader, each with how many words of a
//! table are lent: all limits that fit into few bytes, line ends of every sort,
//! domain names in patterns, namespaces, and short texts of every sort.

use crate::dice::Dice;
use crate::large::short_name;
use crate::{ends, limits, namespaces, patterns, texts};
use second::refusal::{COUNT, SAME_PRINCIPAL, TWICE, UNBOUND, UNKNOWN};
use second::{policy_of, EXAMPLE, TABLE_WORDS};

/// A text, and how many words are lent for its table.
pub type Reading = (Vec<u8>, usize);

/// A text of more bytes is too long to be stored beside many.
const SHORT: usize = 700;

/// How many short texts there are.
const SHORT_TEXTS: u64 = 100;

pub fn all(seed: u64) -> Vec<Reading> {
    let rooms = [0, TABLE_WORDS - 1, TABLE_WORDS, TABLE_WORDS + 6];
    let mut all: Vec<Reading> = rooms.map(|room| (EXAMPLE.into(), room)).into();
    let enough = |text: Vec<u8>| (text, TABLE_WORDS);
    all.extend(small_limits().into_iter().map(enough));
    all.extend(counts().map(|text| enough(text.into_bytes())));
    all.extend(ends::stored().into_iter().map(enough));
    all.extend(patterns::stored().into_iter().map(enough));
    all.extend(namespaces::stored().into_iter().map(enough));
    all.extend((0..SHORT_TEXTS).map(|case| short(case, &mut Dice::of_case(seed, case))));
    all
}

/// The limits that a short text shows, at it and one past it; among them those
/// that document 01 asks to be run: 16 and 17 pattern elements, names of 64 and
/// 65 bytes, `uid: U` in an object context under no binding.
fn small_limits() -> Vec<Vec<u8>> {
    let both = |limit| [false, true].map(|past| limits::text(limit, past).0);
    let all = (0..limits::DRAFT_LIMITS).flat_map(both);
    all.filter(|text| text.len() <= SHORT).collect()
}

/// A short text of any sort, or one that a rule over the whole file refuses,
/// each rule in turn.
fn short(case: u64, dice: &mut Dice) -> Reading {
    let rules = [COUNT, TWICE, UNKNOWN, UNBOUND, SAME_PRINCIPAL];
    let rule = rules[case as usize / 2 % rules.len()];
    let refused = |text: &[u8]| policy_of(text).is_err_and(|refusal| refusal.number == rule);
    let text = loop {
        let any = case % 2 == 1;
        let text = match any {
            true => texts::small_text(dice),
            false => texts::against_rules(dice),
        };
        if text.len() <= SHORT && (any || refused(&text)) {
            break text;
        }
    };
    (text, TABLE_WORDS + *dice.pick(&[0, 0, 0, 0, 1, 2]))
}

/// The counts of the whole file: 128 and 129 domains in each map, 1,024 and
/// 1,025 objects and functions, 128 and 129 entries, 256 and 257 descriptors.
pub fn counts() -> [String; 10] {
    let domains = |count, key| each(count, |name| domain(name, key, ""));
    let objects = |count| domain("A", "objects", &members("OTHER|||", count));
    let functions = |count| domain("A", "subjects", &members("f|", count));
    let subjects = domains(128, "subjects");
    let bare = "  can_read:\n  can_write:\n";
    let root = entry("a", "    execution_context:\n      uid: root\n") + bare;
    let entries = each(128, |name| entry(name, bare)) + &root;
    let omitted = each(127, |name| entry(name, ""));
    let last = entry(&short_name(127), "");
    let items = "  can_read:\n  - objects:\n  - objects:\n";
    [
        listing(&domains(128, "objects"), "", ""),
        listing(&domains(129, "objects"), "", ""),
        listing("", &domains(129, "subjects"), ""),
        listing(&objects(1_024), "", ""),
        listing(&objects(1_025), "", ""),
        listing("", &functions(1_024), ""),
        listing("", &functions(1_025), ""),
        // 128 subject domains, 128 entries and 256 descriptors.
        listing("", &subjects, &format!("{omitted}{last}")),
        listing("", &subjects, &entries),
        listing("", &subjects, &format!("{omitted}{last}{items}")),
    ]
}

fn listing(objects: &str, subjects: &str, entries: &str) -> String {
    let top = |key: &str, items: &str| match items {
        "" => format!("{key}: []\n"),
        _ => format!("{key}:\n{items}"),
    };
    top("object_map", objects) + &top("subject_map", subjects) + &top("privileges", entries)
}

/// So many, each with a name of its own.
fn each(count: usize, one: impl Fn(&str) -> String) -> String {
    (0..count).map(|number| one(&short_name(number))).collect()
}

fn domain(name: &str, key: &str, members: &str) -> String {
    format!("- name: {name}\n  {key}: [{members}]\n")
}

fn members(before: &str, count: usize) -> String {
    let member = |number| format!("{before}{}", short_name(number));
    let all: Vec<String> = (0..count).map(member).collect();
    all.join(", ")
}

fn entry(subject: &str, rest: &str) -> String {
    format!("- principal:\n    subject: {subject}\n{rest}")
}
