//! Questions for the name of a domain, and those that are stored, each with its
//! text: document 01's example, a file of nothing, names that stand elsewhere
//! in the text too, the limits of a map and of a name, line ends of every sort,
//! and texts that are refused.

use crate::dice::Dice;
use crate::draft::Draft;
use crate::{ends, fillings, limits, write};
use second::lookup::{self, Map};
use second::{policy_of, Answer, EXAMPLE};
use std::collections::BTreeSet;

/// Asks for the name of a domain of the map with this number.
#[derive(Clone, Copy, Debug, PartialEq, Eq)]
pub struct Question {
    pub map: u16,
    pub domain: usize,
}

impl Question {
    /// What the plain lookup says.
    pub fn answer(self, text: &[u8]) -> Answer {
        lookup::answer(lookup::name(text, self.map, self.domain))
    }
}

const OBJECTS: u16 = Map::Objects as u16;
const SUBJECTS: u16 = Map::Subjects as u16;

/// Numbers that no map has.
const NO_MAPS: [u16; 3] = [0, 3, 65_535];

/// Questions about a text: the edges of both maps' counts, and maps that are
/// none with a number that one of the maps has.
pub fn questions(dice: &mut Dice, text: &[u8]) -> Vec<Question> {
    let counts = policy_of(text).map_or([0, 0], |policy| {
        [policy.object_domains.into(), policy.subject_domains.into()]
    });
    let mut all = Vec::new();
    for (map, count) in [OBJECTS, SUBJECTS].into_iter().zip(counts) {
        let numbers = numbers(dice, count).into_iter();
        all.extend(numbers.map(|domain| Question { map, domain }));
    }
    let domain = dice.below(counts[0].max(counts[1]));
    all.extend(NO_MAPS.map(|map| Question { map, domain }));
    all
}

/// Domain numbers about a count, about the limit, and of more bits than any
/// domain has: cut short they would be valid.
fn numbers(dice: &mut Dice, count: usize) -> BTreeSet<usize> {
    let valid = dice.below(count);
    let about = [0, 1, count.saturating_sub(1), count, count + 1, valid];
    let limits = [127, 128, 65_535, 65_536, usize::MAX];
    let longer = [8, 16, 32, 63].map(|bit| (1 << bit) + valid);
    about.into_iter().chain(limits).chain(longer).collect()
}

/// Names that stand in the text before their place, in parts of lines and in
/// lines that are skipped; and domains that only a skipped line has.
pub const ELSEWHERE: &str = "\
# - name: S
object_map:
- name: name

  objects: [OTHER|||S, OTHER|||O]
# - name: Skipped
- name: O
  objects: []
subject_map:
  # - name: Skipped
- name: object_map
  subjects: [O|S]
- name: S
  subjects: []
privileges: []
";

/// A text, a map's number, and the domains asked for.
type Asked = (Vec<u8>, u16, Vec<usize>);

/// The stored questions.
pub fn all(seed: u64) -> Vec<(Vec<u8>, Question)> {
    let refused = |number: u16| refused(&mut Dice::of_case(seed, number.into()), number);
    let refused = fillings::REFUSALS.map(refused).into_iter();
    let first = |text: Vec<u8>| [OBJECTS, SUBJECTS].map(|map| (text.clone(), map, vec![0]));
    let each = |(text, map, domains): Asked| {
        let one = move |domain| (text.clone(), Question { map, domain });
        domains.into_iter().map(one)
    };
    let asked = edges().into_iter().chain(refused.flat_map(first));
    asked.flat_map(each).collect()
}

fn edges() -> Vec<Asked> {
    let nothing = write::text(&write::lines(&Draft::default()));
    let limit = |limit, past| limits::text(limit, past).0;
    let objects = |past| limit(limits::OBJECT_DOMAINS, past);
    let subjects = |past| limit(limits::SUBJECT_DOMAINS, past);
    let longer = |bit: u32, number: usize| (1 << bit) + number;
    let mut asked: Vec<Asked> = vec![
        (EXAMPLE.into(), OBJECTS, vec![0, 1, longer(16, 0)]),
        (EXAMPLE.into(), SUBJECTS, vec![0, 1, 2, longer(32, 1)]),
        (nothing.clone(), OBJECTS, vec![0]),
        (nothing, SUBJECTS, vec![0]),
        (ELSEWHERE.into(), OBJECTS, vec![0, 1, 2]),
        (ELSEWHERE.into(), SUBJECTS, vec![0, 1, 2]),
        (objects(false), OBJECTS, vec![127, 128]),
        (objects(true), OBJECTS, vec![0]),
        (subjects(false), SUBJECTS, vec![127, 128]),
        (subjects(true), SUBJECTS, vec![0]),
        (limit(limits::NAME, false), OBJECTS, vec![1]),
        (limit(limits::NAME, true), OBJECTS, vec![0]),
    ];
    asked.extend(NO_MAPS.map(|map| (EXAMPLE.into(), map, vec![0])));
    let both = |text: Vec<u8>| [(text.clone(), OBJECTS, vec![0]), (text, SUBJECTS, vec![1])];
    asked.extend(ends::stored().into_iter().flat_map(both));
    asked
}

/// A short text that is refused with this number and has items in both maps.
fn refused(dice: &mut Dice, number: u16) -> Vec<u8> {
    let starts = ["object_map:\n- name: ", "subject_map:\n- name: "];
    loop {
        let text = fillings::short_text(dice, number);
        let told = String::from_utf8_lossy(&text);
        if starts.iter().all(|start| told.contains(start)) {
            return text;
        }
    }
}
