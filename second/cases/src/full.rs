//! A table with every entry and descriptor it has room for, and events whose
//! top function is the subject of all of them: what a judge is timed on.

use crate::dice::Dice;
use crate::events::OwnEvent;
use second::policy::{
    first_repeat, Context, Descriptor, Element, Entry, Grant, Policy, Sort, Uid, DESCRIPTORS,
    DOMAINS, ELEMENTS, ENTRIES, MEMBERS,
};

/// The functions that patterns and stacks are made of. Each lies in the domain
/// of its own number.
const POOL: usize = 8;

/// How many frames the stacks of events have, from one number to another.
#[derive(Clone, Copy, Debug)]
pub struct Frames {
    pub name: &'static str,
    pub least: usize,
    pub most: usize,
}

/// Short stacks, and the longest.
pub const FRAMES: [Frames; 2] = [
    Frames {
        name: "1 to 8 frames",
        least: 1,
        most: 8,
    },
    Frames {
        name: "64 frames",
        least: 64,
        most: 64,
    },
];

impl Frames {
    pub fn event(self, dice: &mut Dice) -> OwnEvent {
        let frames = dice.from_to(self.least, self.most);
        event(dice, frames)
    }
}

/// In so many of a hundred elements that are not `all` the patterns name the
/// domain and not the function.
pub fn policy(dice: &mut Dice, domains: usize) -> Policy {
    let domain = |member: usize| (member % DOMAINS) as u16;
    let members: Vec<u16> = (0..MEMBERS).map(domain).collect();
    let mut policy = Policy {
        object_domains: DOMAINS as u16,
        subject_domains: DOMAINS as u16,
        objects: members.clone(),
        functions: members,
        entries: Vec::new(),
    };
    while policy.entries.len() < ENTRIES {
        policy.entries.push(entry(dice, domains));
        if first_repeat(&policy.entries).is_some() {
            policy.entries.pop();
        }
    }
    policy
}

/// 128 entries of one subject, with full patterns, no two of which match one
/// stack: each ends in a function of its own, so that the overlap report
/// searches every pair to its end. The other elements are `all` and functions,
/// or domains with one function each.
pub fn clear_policy(has_domains: bool) -> Policy {
    let pattern = |last: usize| {
        let one = |place: usize| match (place % 2, (place / 2) as u16) {
            (0, _) => Element::All,
            (_, domain) if has_domains => Element::Domain(1 + domain),
            (_, function) => Element::Function(function),
        };
        let mut elements: Vec<Element> = (0..ELEMENTS - 1).map(one).collect();
        elements.push(Element::Function(last as u16));
        elements
    };
    let entry = |last| Entry {
        subject: 0,
        context: Context {
            pattern: pattern(last),
            ..Context::all()
        },
        can_call: Grant::All,
        can_return: Grant::All,
        can_read: Vec::new(),
        can_write: Vec::new(),
    };
    Policy {
        object_domains: 0,
        subject_domains: POOL as u16,
        objects: Vec::new(),
        functions: [vec![0; ENTRIES], (1..POOL as u16).collect()].concat(),
        entries: (0..ENTRIES).map(entry).collect(),
    }
}

fn entry(dice: &mut Dice, domains: usize) -> Entry {
    let context = Context {
        pattern: pattern(dice, domains),
        uid: *dice.pick(&[Uid::All, Uid::Variable, Uid::Root, Uid::User]),
        gid: *dice.pick(&[Sort::All, Sort::Variable]),
        namespace: *dice.pick(&[Sort::All, Sort::Variable]),
    };
    // Its variables are those of the entry, so they are bound.
    let mut some = || {
        let one = |_| Descriptor {
            objects: grant(dice),
            context: Context {
                pattern: pattern(dice, domains),
                ..context
            },
        };
        (0..DESCRIPTORS / ENTRIES / 2).map(one).collect()
    };
    let (can_read, can_write) = (some(), some());
    Entry {
        subject: 0,
        can_call: grant(dice),
        can_return: grant(dice),
        can_read,
        can_write,
        context,
    }
}

fn pattern(dice: &mut Dice, domains: usize) -> Vec<Element> {
    let length = dice.from_to(2, ELEMENTS);
    let one = |_| match dice.percent(50) {
        true => Element::All,
        false if domains > 0 && dice.percent(domains) => Element::Domain(dice.below(POOL) as u16),
        false => Element::Function(dice.below(POOL) as u16),
    };
    (0..length).map(one).collect()
}

fn grant(dice: &mut Dice) -> Grant {
    let domains = (0..DOMAINS as u16).filter(|_| dice.percent(5));
    Grant::Domains(domains.collect())
}

/// An event with so many frames on its stack, and on its allocation stack if
/// it has one.
fn event(dice: &mut Dice, frames: usize) -> OwnEvent {
    let stack =
        |dice: &mut Dice| -> Vec<u16> { (0..frames).map(|_| dice.below(POOL) as u16).collect() };
    let mut running = stack(dice);
    if let Some(top) = running.last_mut() {
        *top = 0;
    }
    let [uid, gid, namespace] = [(); 3].map(|()| dice.below(2) as u32);
    OwnEvent {
        operation: dice.from_to(1, 4) as u16,
        target: dice.below(MEMBERS) as u16,
        stack: running,
        uid,
        gid,
        namespace,
        allocation: match dice.percent(50) {
            true => stack(dice),
            false => Vec::new(),
        },
        allocation_uid: uid,
        allocation_gid: gid,
        allocation_namespace: namespace,
    }
}
