//! The texts that are stored for the list of names, each with how many words
//! are lent: document 01's example, a file of nothing, lines that are far apart,
//! the counts of a map, line ends of every sort, and short texts of every sort.

use crate::dice::Dice;
use crate::draft::Draft;
use crate::{ends, fillings, names, readings, write};
use second::names::listed;
use second::EXAMPLE;

/// A text, and how many words are lent for its list.
pub type Listing = (Vec<u8>, usize);

/// How many short texts there are that are taken.
const SHORT_TEXTS: u64 = 24;

/// What is lent for a text that is refused: enough for some names.
const SOME: usize = 40;

/// Lines that are skipped before each line, so that an entry's line, its
/// subject's and those of members are far apart; names that are a front of the
/// next, or stand elsewhere too.
const APART: &str = "\
# GLOBAL|m.c|1|a

object_map:

# Lists that are empty, of one, and of more.
- name: A

  objects: []
   # - name: B
- name: AB
#
  objects: [OTHER|||A, OTHER|||, HEAP|m.c|1|, OTHER|||AB]

subject_map:
- name: ABC
  #
  subjects: [AB|A]

- name: S

  subjects: [A|A, A|AB]
privileges:

- principal:
#   subject: S

    subject: ABC
- principal:
    # Far below.

    subject: S
    execution_context:
      call_context: [A|A]
- principal:

    subject: ABC
    execution_context:
      uid: root
";

/// The stored texts.
pub fn all(seed: u64) -> Vec<Listing> {
    let example = EXAMPLE.as_bytes();
    let mut all: Vec<Listing> = rooms(example).map(|room| (example.to_vec(), room)).into();
    all.push(more(write::text(&write::lines(&Draft::default()))));
    all.extend([APART, names::ELSEWHERE].map(|text| more(text.into())));
    all.extend(counts().into_iter().map(more));
    all.extend(ends::stored().into_iter().map(more));
    let refused =
        |number: u16| fillings::short_text(&mut Dice::of_case(seed, number.into()), number);
    all.extend(fillings::REFUSALS.map(|number| (refused(number), SOME)));
    all.extend((0..SHORT_TEXTS).map(|case| short(case, &mut Dice::of_case(seed + 1, case))));
    all
}

/// No room, one word too few, just enough, and more. For a text that is refused
/// any size will do.
fn rooms(text: &[u8]) -> [usize; 4] {
    let size = listed(text).map_or(SOME, |list| list.len());
    [0, size.saturating_sub(1), size, size + 5]
}

fn more(text: Vec<u8>) -> Listing {
    let [.., room] = rooms(&text);
    (text, room)
}

/// 128 and 129 object domains, 1,024 objects, 1,024 functions, and 128 subject
/// domains with an entry each.
fn counts() -> [Vec<u8>; 5] {
    let counts = readings::counts();
    [0, 1, 3, 5, 7].map(|place| counts[place].clone().into_bytes())
}

/// A short text that is taken and has an entry, with the four rooms in turn.
fn short(case: u64, dice: &mut Dice) -> Listing {
    let text = fillings::short_text(dice, 0);
    let room = rooms(&text)[case as usize % 4];
    (text, room)
}
