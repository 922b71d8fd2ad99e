//! Events that often meet a policy's patterns.

use crate::dice::Dice;
use second::judge::Event;
use second::policy::{Context, Element, Entry, Policy};

/// An event with its own stacks.
#[derive(Clone, Debug, PartialEq, Eq)]
pub struct OwnEvent {
    pub operation: u16,
    pub target: u16,
    pub stack: Vec<u16>,
    pub uid: u32,
    pub gid: u32,
    pub namespace: u32,
    pub allocation: Vec<u16>,
    pub allocation_uid: u32,
    pub allocation_gid: u32,
    pub allocation_namespace: u32,
}

impl OwnEvent {
    pub fn lent(&self) -> Event<'_> {
        Event {
            stack: &self.stack,
            uid: self.uid,
            gid: self.gid,
            namespace: self.namespace,
            allocation: &self.allocation,
            allocation_uid: self.allocation_uid,
            allocation_gid: self.allocation_gid,
            allocation_namespace: self.allocation_namespace,
        }
    }
}

const IDS: [u32; 6] = [0, 0, 1, 5, 65_536, u32::MAX];

/// An event for a policy; also one for a table that is none.
pub fn event(dice: &mut Dice, policy: Option<&Policy>) -> OwnEvent {
    let functions = policy.map_or(&[0; 3][..], |p| &p.functions);
    let objects = policy.map_or(3, |p| p.objects.len());
    let entry = policy
        .filter(|p| !p.entries.is_empty())
        .map(|p| dice.pick(&p.entries));
    let operation = match dice.below(30) {
        0 => *dice.pick(&[0, 5, 6, 255, 65_535]),
        other => 1 + (other % 4) as u16,
    };
    let count = if operation < 3 {
        objects
    } else {
        functions.len()
    };
    let mut stack = stack(dice, functions, entry.map(|e| &e.context));
    if let (Some(policy), Some(entry)) = (policy, entry) {
        meet_subject(dice, policy, entry, &mut stack);
    }
    let object = entry.and_then(|entry| {
        let all: Vec<_> = entry.descriptors().collect();
        (!all.is_empty()).then(|| &dice.pick(&all).context)
    });
    let allocation = match dice.below(10) {
        0..=3 => Vec::new(),
        _ => self::stack(dice, functions, object),
    };
    let [uid, gid, namespace] = [(); 3].map(|()| *dice.pick(&IDS));
    OwnEvent {
        operation,
        target: number(dice, count),
        stack,
        uid,
        gid,
        namespace,
        allocation,
        allocation_uid: like(dice, uid),
        allocation_gid: like(dice, gid),
        allocation_namespace: like(dice, namespace),
    }
}

/// Often the same id.
fn like(dice: &mut Dice, id: u32) -> u32 {
    match dice.percent(55) {
        true => id,
        false => *dice.pick(&IDS),
    }
}

/// Often puts a function of the entry's subject on top, where the pattern
/// lets it.
fn meet_subject(dice: &mut Dice, policy: &Policy, entry: &Entry, stack: &mut Vec<u16>) {
    let numbers = 0..policy.functions.len() as u16;
    let own = |&f: &u16| policy.functions[usize::from(f)] == entry.subject;
    let tops: Vec<u16> = numbers.filter(own).collect();
    let open = entry.context.pattern.last() == Some(&Element::All);
    if open && !tops.is_empty() && stack.len() < 60 && dice.percent(70) {
        stack.push(*dice.pick(&tops));
    }
}

/// A number, mostly below a count.
fn number(dice: &mut Dice, count: usize) -> u16 {
    match dice.below(25) {
        0 => count as u16,
        1 => *dice.pick(&[65_535, 1_023, 1_024]),
        _ => dice.below(count.min(8)) as u16,
    }
}

/// A function of a domain; now and then, and where it has none, any number.
fn one_of(dice: &mut Dice, functions: &[u16], domain: u16) -> u16 {
    let own = |&f: &u16| functions[usize::from(f)] == domain;
    let own: Vec<u16> = (0..functions.len() as u16).filter(own).collect();
    match own.is_empty() || dice.percent(10) {
        true => number(dice, functions.len()),
        false => *dice.pick(&own),
    }
}

/// A stack: one that a pattern matches, or any; now and then of an unusual
/// length. The functions are told by their domains.
fn stack(dice: &mut Dice, functions: &[u16], context: Option<&Context>) -> Vec<u16> {
    let mut stack = Vec::new();
    match context {
        Some(context) if dice.percent(75) => {
            for element in &context.pattern {
                match *element {
                    Element::Function(function) => stack.push(function),
                    Element::Domain(domain) => stack.push(one_of(dice, functions, domain)),
                    Element::All => {
                        let swallowed = *dice.pick(&[0, 0, 1, 1, 2]);
                        stack.extend((0..swallowed).map(|_| number(dice, functions.len())));
                    }
                }
            }
        }
        _ => stack.extend((0..dice.from_to(1, 4)).map(|_| number(dice, functions.len()))),
    }
    if stack.is_empty() && dice.percent(90) {
        stack.push(number(dice, functions.len()));
    }
    match dice.below(60) {
        0 => stack.clear(),
        1 => resize(&mut stack, 64),
        2 => resize(&mut stack, 65),
        3 => resize(&mut stack, *dice.pick(&[63, 66, 200])),
        _ => {}
    }
    stack
}

/// Lengthens a stack below its last two frames, or cuts its base.
fn resize(stack: &mut Vec<u16>, length: usize) {
    let keep = stack.len().saturating_sub(2);
    let frame = stack.first().copied().unwrap_or(0);
    while stack.len() < length {
        stack.insert(keep, frame);
    }
    let extra = stack.len() - length;
    stack.drain(..extra);
}
