//! The overlap report: table to first clashing pair.
//!
//! A pair of places (one in each pattern) is reached by a stack when both
//! patterns can stand there after it. A breadth-first search over such pairs
//! gives the length of a shortest stack that both entries match; the stack
//! itself is then chosen frame by frame, lowest function first.

use crate::answer::{Answer, REFUSED};
use crate::matching::matches;
use crate::policy::{Element, Entry, Policy, Uid, ELEMENTS};
use crate::refusal::{NOT_WELL_FORMED, SHORT_WITNESS};
use crate::table::decode;
use std::collections::{BTreeSet, HashSet};

/// The words of the witness that are written.
pub const WITNESS_WORDS: usize = 30;

#[derive(Clone, Copy, Debug, PartialEq, Eq, Hash)]
pub enum Overlap {
    Clear,
    Clash {
        lower: u8,
        higher: u8,
        length: u8,
        uid: u8,
    },
    Refused(u16),
}

impl Overlap {
    /// Classes 1 to 3; a clash tells the pair, the length and the uid, each as
    /// a byte, the first one lowest.
    pub fn answer(self) -> Answer {
        let (class, value, rest) = match self {
            Overlap::Refused(number) => (REFUSED, number, 0),
            Overlap::Clash {
                lower,
                higher,
                length,
                uid,
            } => (2, 0, u32::from_le_bytes([lower, higher, length, uid])),
            Overlap::Clear => (3, 0, 0),
        };
        Answer { class, value, rest }
    }
}

/// A clash: a pair of entries and a stack that both match.
#[derive(Clone, Debug, PartialEq, Eq)]
pub struct Clash {
    pub lower: u8,
    pub higher: u8,
    pub uid: u8,
    pub stack: Vec<u16>,
}

/// The report on a table: 20, then 40. Refused, it changes nothing; else the
/// witness holds the stack from its base, then zeros to word 30.
pub fn overlap(table: &[u16], witness: &mut [u16]) -> Overlap {
    let Some(policy) = decode(table) else {
        return Overlap::Refused(NOT_WELL_FORMED);
    };
    let Some(words) = witness.get_mut(..WITNESS_WORDS) else {
        return Overlap::Refused(SHORT_WITNESS);
    };
    words.fill(0);
    let Some(clash) = first_clash(&policy) else {
        return Overlap::Clear;
    };
    words[..clash.stack.len()].copy_from_slice(&clash.stack);
    Overlap::Clash {
        lower: clash.lower,
        higher: clash.higher,
        length: clash.stack.len() as u8,
        uid: clash.uid,
    }
}

/// The pair, "lower entry least, then higher least", of a sound policy.
pub fn first_clash(policy: &Policy) -> Option<Clash> {
    let functions = Functions::of(policy);
    for (lower, one) in policy.entries.iter().enumerate() {
        for (higher, other) in policy.entries.iter().enumerate().skip(lower + 1) {
            if let Some(stack) = pair_clash(&functions, one, other) {
                let user = one.context.uid == Uid::User || other.context.uid == Uid::User;
                return Some(Clash {
                    lower: lower as u8,
                    higher: higher as u8,
                    uid: u8::from(user),
                    stack,
                });
            }
        }
    }
    None
}

/// The functions of a policy.
struct Functions<'p> {
    /// The domain of each.
    domains: &'p [u16],
    /// The lowest of each domain that has any.
    lowest: Vec<Option<u16>>,
}

impl<'p> Functions<'p> {
    fn of(policy: &'p Policy) -> Functions<'p> {
        let domains = &policy.functions;
        let mut lowest = vec![None; policy.subject_domains.into()];
        for (function, &domain) in (0..).zip(domains) {
            lowest[usize::from(domain)].get_or_insert(function);
        }
        Functions { domains, lowest }
    }

    fn lowest_of(&self, domain: u16) -> Option<u16> {
        self.lowest[usize::from(domain)]
    }
}

/// The lowest of the shortest stacks that two entries both match.
fn pair_clash(functions: &Functions<'_>, one: &Entry, other: &Entry) -> Option<Vec<u16>> {
    // "Only `root` against `user` are apart" (point 20).
    let apart = matches!(
        (one.context.uid, other.context.uid),
        (Uid::Root, Uid::User) | (Uid::User, Uid::Root)
    );
    if apart || one.subject != other.subject {
        return None;
    }
    let pair = Pair {
        functions,
        subject: one.subject,
        one: &one.context.pattern,
        other: &other.context.pattern,
    };
    let stack = pair.lowest(pair.shortest()?);
    let is_match = |pattern| matches(functions.domains, pattern, &stack);
    debug_assert!(is_match(pair.one) && is_match(pair.other));
    Some(stack)
}

/// A place in each of two patterns.
type Places = (usize, usize);

/// The patterns of two entries that have one subject.
struct Pair<'p> {
    functions: &'p Functions<'p>,
    subject: u16,
    one: &'p [Element],
    other: &'p [Element],
}

impl Pair<'_> {
    /// Whether a frame may be top: a function of the subject.
    fn is_top(&self, frame: u16) -> bool {
        Element::Domain(self.subject).meets(self.functions.domains, frame)
    }

    /// One pattern reads one frame at a place: an `all` swallows the frame and
    /// stays, any other element that meets it goes on.
    fn step(&self, pattern: &[Element], place: usize, frame: u16) -> Option<usize> {
        match pattern.get(place)? {
            Element::All => Some(place),
            one => one
                .meets(self.functions.domains, frame)
                .then_some(place + 1),
        }
    }

    /// The places after one frame, before any `all` drops out.
    fn after(&self, (p, q): Places, frame: u16) -> Option<Places> {
        let one = self.step(self.one, p, frame)?;
        Some((one, self.step(self.other, q, frame)?))
    }

    /// The places one step further without a frame: "a first `all` drops
    /// out".
    fn drops(&self, (p, q): Places) -> impl Iterator<Item = Places> {
        let one = (self.one.get(p) == Some(&Element::All)).then_some((p + 1, q));
        let other = (self.other.get(q) == Some(&Element::All)).then_some((p, q + 1));
        one.into_iter().chain(other)
    }

    /// Whether both rests match the empty stack.
    fn ends(&self, (p, q): Places) -> bool {
        let rests = self.one[p..].iter().chain(&self.other[q..]);
        rests.into_iter().all(|element| *element == Element::All)
    }

    /// A frame that leads on from some places if any does: which function of a
    /// domain it is makes no difference. Under two `all` both patterns stay, so
    /// there only a top is worth a frame.
    fn frame_at(&self, (p, q): Places) -> Option<u16> {
        match (*self.one.get(p)?, *self.other.get(q)?) {
            (Element::Function(function), _) | (_, Element::Function(function)) => Some(function),
            (Element::Domain(domain), _) | (_, Element::Domain(domain)) => {
                self.functions.lowest_of(domain)
            }
            (Element::All, Element::All) => self.functions.lowest_of(self.subject),
        }
    }

    /// The length of a shortest stack, by breadth-first search over pairs of
    /// places: each layer holds those first reached by one more frame.
    fn shortest(&self) -> Option<usize> {
        let mut seen = [[false; ELEMENTS + 1]; ELEMENTS + 1];
        seen[0][0] = true;
        let mut is_new = |&(p, q): &Places| !std::mem::replace(&mut seen[p][q], true);
        let mut layer = vec![(0, 0)];
        let mut length = 0;
        while !layer.is_empty() {
            length += 1;
            let mut next = Vec::new();
            while let Some(places) = layer.pop() {
                layer.extend(self.drops(places).filter(&mut is_new));
                let Some(frame) = self.frame_at(places) else {
                    continue;
                };
                let Some(after) = self.after(places, frame) else {
                    continue;
                };
                if self.is_top(frame) && self.ends(after) {
                    return Some(length);
                }
                next.push(after);
            }
            next.retain(&mut is_new);
            layer = next;
        }
        None
    }

    /// The frames worth trying: the functions that a pattern names, the lowest
    /// of each domain that one names and of the subject, and 0. Any other does
    /// nothing that a lower one of these would not do.
    fn frames(&self) -> BTreeSet<u16> {
        let frame = |element: Element| match element {
            Element::All => Some(0),
            Element::Function(function) => Some(function),
            Element::Domain(domain) => self.functions.lowest_of(domain),
        };
        let named = self.one.iter().chain(self.other).copied();
        let others = [Element::All, Element::Domain(self.subject)];
        named.chain(others).filter_map(frame).collect()
    }

    /// The frames to choose from when so many are left to come, itself
    /// counted, lowest first: the last one must be a top.
    fn choices<'f>(
        &'f self,
        left: usize,
        frames: &'f BTreeSet<u16>,
    ) -> impl Iterator<Item = u16> + 'f {
        let may_come = move |&frame: &u16| left > 1 || self.is_top(frame);
        frames.iter().copied().filter(may_come)
    }

    /// From which places both rests match some stack of 0, 1, 2, .. of these
    /// frames (the last of them a top), up to a length.
    fn ending(&self, length: usize, frames: &BTreeSet<u16>) -> Vec<HashSet<Places>> {
        let (ps, qs) = (self.one.len(), self.other.len());
        let mut ending: Vec<HashSet<Places>> = Vec::new();
        for left in 0..=length {
            let mut here = HashSet::new();
            for places in (0..=ps)
                .rev()
                .flat_map(|p| (0..=qs).rev().map(move |q| (p, q)))
            {
                let good = match left {
                    0 => self.ends(places),
                    _ => {
                        self.drops(places).any(|dropped| here.contains(&dropped))
                            || self.choices(left, frames).any(|frame| {
                                self.after(places, frame)
                                    .is_some_and(|after| ending[left - 1].contains(&after))
                            })
                    }
                };
                if good {
                    here.insert(places);
                }
            }
            ending.push(here);
        }
        ending
    }

    /// Of the stacks of this length, "the lowest function numbers from the
    /// base up": each frame is the lowest after which the rest still ends.
    fn lowest(&self, length: usize) -> Vec<u16> {
        let frames = self.frames();
        let ending = self.ending(length, &frames);
        let mut here = HashSet::from([(0, 0)]);
        let mut stack = Vec::new();
        for left in (1..=length).rev() {
            let mut open: Vec<Places> = here.iter().copied().collect();
            while let Some(places) = open.pop() {
                open.extend(self.drops(places).filter(|&dropped| here.insert(dropped)));
            }
            let after = |frame: u16| -> HashSet<Places> {
                let reached = here.iter().filter_map(|&places| self.after(places, frame));
                reached.filter(|p| ending[left - 1].contains(p)).collect()
            };
            let mut choices = self.choices(left, &frames);
            let Some(frame) = choices.find(|&frame| !after(frame).is_empty()) else {
                break;
            };
            stack.push(frame);
            here = after(frame);
        }
        stack
    }
}
