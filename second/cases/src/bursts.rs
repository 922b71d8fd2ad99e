//! Bursts: tables of 128 entries and events on them, each of a sort of its own
//! that is easy or hard on a judge. What judges are timed on, beside the full table.

use crate::dice::Dice;
use crate::events::OwnEvent;
use crate::full::{self, Frames};
use second::policy::{Context, Element, Entry, Policy, Sort, Uid, ELEMENTS, ENTRIES};
use second::quick_judge::judge_known;
use second::Verdict;

#[derive(Clone, Copy, Debug, PartialEq, Eq)]
pub enum Burst {
    /// Fifteen of sixteen entries have another subject.
    OtherSubjects,
    /// Every pattern is sixteen `all`s.
    SixteenAlls,
    /// Patterns `[all, f, .., f]`, and no frame but f.
    AllThenOne,
    /// Allowed by one of the first entries.
    Early,
    /// Allowed by one of the last.
    Late,
    /// Allowed by none.
    Never,
    AllocatedReads,
}

pub const BURSTS: [Burst; 7] = [
    Burst::OtherSubjects,
    Burst::SixteenAlls,
    Burst::AllThenOne,
    Burst::Early,
    Burst::Late,
    Burst::Never,
    Burst::AllocatedReads,
];

/// The running function: its domain is the subject.
const F: u16 = 0;

/// So many entries count as the first, and as the last.
const FEW: usize = 16;

/// Principals of one subject and pattern differ in the sorts of uid, gid and
/// namespace: so many ways.
const SORTS: usize = 16;

/// How often an event is drawn anew at most.
const DRAWS: usize = 100_000;

impl Burst {
    pub fn name(self) -> &'static str {
        match self {
            Burst::OtherSubjects => "other subjects",
            Burst::SixteenAlls => "sixteen alls",
            Burst::AllThenOne => "[all, f, .., f]",
            Burst::Early => "allowed early",
            Burst::Late => "allowed late",
            Burst::Never => "never allowed",
            Burst::AllocatedReads => "allocated reads",
        }
    }

    pub fn policy(self, dice: &mut Dice) -> Policy {
        let mut policy = full::policy(dice, 0);
        for (number, entry) in policy.entries.iter_mut().enumerate() {
            self.change(number, entry);
        }
        policy
    }

    /// An entry of the full table, as this burst has it.
    fn change(self, number: usize, entry: &mut Entry) {
        match self {
            Burst::OtherSubjects => entry.subject = (number % 16) as u16,
            Burst::SixteenAlls => {
                let subjects = ENTRIES / SORTS;
                entry.subject = (number % subjects) as u16;
                put(entry, number / subjects, vec![Element::All; ELEMENTS]);
            }
            Burst::AllThenOne => {
                let mut pattern = vec![Element::Function(F); ELEMENTS - number / SORTS];
                pattern[0] = Element::All;
                put(entry, number, pattern);
            }
            Burst::Early | Burst::Late | Burst::Never | Burst::AllocatedReads => {}
        }
    }

    /// An event under a table of this burst, its frames from one number to another;
    /// nothing if there seems to be none.
    pub fn event(self, dice: &mut Dice, table: &[u16], frames: Frames) -> Option<OwnEvent> {
        let mut draws = (0..DRAWS).map(|_| self.any_event(dice, frames));
        draws.find(|event| self.has(table, event))
    }

    fn any_event(self, dice: &mut Dice, frames: Frames) -> OwnEvent {
        let mut event = frames.event(dice);
        match self {
            Burst::AllThenOne => {
                event.stack.fill(F);
                event.allocation.fill(F);
            }
            Burst::AllocatedReads => event.operation = 1,
            _ => {}
        }
        event
    }

    /// Whether an event is of this burst.
    fn has(self, table: &[u16], event: &OwnEvent) -> bool {
        let verdict = || judge_known(table, event.operation, event.target, &event.lent());
        match self {
            Burst::Early => {
                matches!(verdict(), Verdict::Allowed(entry) if usize::from(entry) < FEW)
            }
            Burst::Late => {
                matches!(verdict(), Verdict::Allowed(entry) if usize::from(entry) >= ENTRIES - FEW)
            }
            Burst::Never => matches!(verdict(), Verdict::Violation(_)),
            Burst::AllocatedReads => !event.allocation.is_empty(),
            _ => true,
        }
    }
}

/// Gives an entry and its descriptors this pattern, and sorts in one of the ways.
fn put(entry: &mut Entry, way: usize, pattern: Vec<Element>) {
    let sort = |bit: usize| match way >> bit & 1 {
        0 => Sort::All,
        _ => Sort::Variable,
    };
    entry.context = Context {
        pattern,
        uid: [Uid::All, Uid::Variable, Uid::Root, Uid::User][way % 4],
        gid: sort(2),
        namespace: sort(3),
    };
    for descriptor in entry.can_read.iter_mut().chain(&mut entry.can_write) {
        descriptor.context = entry.context.clone();
    }
}
