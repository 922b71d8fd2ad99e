//! Tables: of files, of policies that no file gives, and damaged ones.

use crate::dice::Dice;
use crate::{limits, texts};
use second::policy::{first_repeat, Context, Descriptor, Element, Entry, Grant, Policy, Sort, Uid};
use second::table::{
    DESCRIPTORS_AT, DESCRIPTOR_WORDS, DOMAIN_WORDS_AT, ENTRIES_AT, ENTRY_WORDS, FUNCTIONS_AT,
    NAMESPACE_AT, OBJECTS_AT, PATTERN_AT, UID_AT, UNUSED_AT,
};
use second::{encode, policy_of, TABLE_WORDS};

/// Any table, well formed in most cases, with words past its end at times.
pub fn table(dice: &mut Dice) -> Vec<u16> {
    let mut words = words(&policy(dice));
    if dice.percent(20) {
        damage(dice, &mut words);
    }
    add_past(dice, &mut words);
    words
}

/// At times adds words past the table, which are never looked at.
fn add_past(dice: &mut Dice, words: &mut Vec<u16>) {
    if dice.percent(10) {
        let more = dice.from_to(1, 9);
        words.extend((0..more).map(|_| dice.next() as u16));
    }
}

/// A well-formed table, with words past its end at times.
pub fn sound_table(dice: &mut Dice) -> Vec<u16> {
    let mut words = loop {
        if let Some(words) = encode(&policy(dice)) {
            break words;
        }
    };
    add_past(dice, &mut words);
    words
}

/// A table that is damaged in most cases.
pub fn doubtful_table(dice: &mut Dice) -> Vec<u16> {
    let mut words = words(&policy(dice));
    if dice.percent(85) {
        damage(dice, &mut words);
    }
    if dice.percent(5) {
        damage(dice, &mut words);
    }
    words
}

fn words(policy: &Policy) -> Vec<u16> {
    encode(policy).unwrap_or_default()
}

/// A sound policy: of a file, of no file, or at a limit.
pub fn policy(dice: &mut Dice) -> Policy {
    match dice.below(100) {
        0..=39 => match policy_of(&texts::good_with_lf(dice)) {
            Ok(policy) => policy,
            Err(_) => direct(dice),
        },
        40..=41 => {
            // The limits whose files the reader takes.
            match policy_of(&limits::text(dice.below(12), false).0) {
                Ok(policy) => policy,
                Err(_) => direct(dice),
            }
        }
        42 => large(dice),
        43..=49 => long_clash(dice),
        50..=59 => {
            let sort = *dice.pick(&MEETINGS);
            meeting(dice, sort)
        }
        60..=67 => open(dice),
        _ => direct(dice),
    }
}

/// A small policy that need not come from a file: domains of functions and
/// objects in any order, subjects without functions.
pub fn direct(dice: &mut Dice) -> Policy {
    let object_domains = *dice.pick(&[0, 1, 2, 2, 3, 4]);
    let subject_domains = *dice.pick(&[0, 1, 2, 2, 3, 3, 4]);
    let some = |dice: &mut Dice, domains: u16| {
        let least = usize::from(dice.percent(90));
        let count = if domains == 0 {
            0
        } else {
            dice.from_to(least, 8)
        };
        members(dice, domains, count)
    };
    let mut policy = Policy {
        object_domains,
        subject_domains,
        objects: some(dice, object_domains),
        functions: some(dice, subject_domains),
        entries: Vec::new(),
    };
    let most = *dice.pick(&[2, 4, 9]);
    add_entries(dice, &mut policy, most, 4);
    policy
}

/// The domains of so many members.
fn members(dice: &mut Dice, domains: u16, count: usize) -> Vec<u16> {
    let one = |_| dice.below(domains.into()) as u16;
    (0..count).map(one).collect()
}

/// Two entries of one subject that only long stacks meet: one pattern begins
/// with functions and domains, the other ends with them.
fn long_clash(dice: &mut Dice) -> Policy {
    let functions = dice.from_to(2, 40);
    let share = *dice.pick(&[0, 0, 30, 100]);
    let some = |dice: &mut Dice, count: usize| -> Vec<Element> {
        let one = |_| match dice.percent(share) {
            true => Element::Domain(u16::from(dice.percent(20))),
            false => Element::Function(dice.below(functions) as u16),
        };
        (0..count).map(one).collect()
    };
    let lengths = (dice.from_to(1, 15), dice.from_to(1, 15));
    let (begin, end) = (some(dice, lengths.0), some(dice, lengths.1));
    let patterns = [
        [&begin[..], &[Element::All]].concat(),
        [&[Element::All], &end[..]].concat(),
    ];
    let uid = *dice.pick(&[Uid::All, Uid::Root, Uid::User]);
    let functions = (0..functions).map(|_| u16::from(dice.percent(20)));
    of_two(functions.collect(), 2, patterns, uid)
}

/// A policy of two entries with these patterns and domain 0 as their subject.
fn of_two(
    functions: Vec<u16>,
    subject_domains: u16,
    patterns: [Vec<Element>; 2],
    uid: Uid,
) -> Policy {
    let entry = |pattern: Vec<Element>| Entry {
        subject: 0,
        context: Context {
            pattern,
            uid,
            ..Context::all()
        },
        can_call: Grant::All,
        can_return: Grant::All,
        can_read: Vec::new(),
        can_write: Vec::new(),
    };
    Policy {
        object_domains: 0,
        subject_domains,
        objects: Vec::new(),
        functions,
        entries: patterns.map(entry).into(),
    }
}

/// What meets in two patterns: a domain and another element.
#[derive(Clone, Copy, Debug, PartialEq, Eq)]
pub enum Meeting {
    OwnFunction,
    OtherFunction,
    SameDomain,
    OtherDomain,
    All,
    /// A domain without functions, itself or `all`.
    EmptyDomain,
}

pub const MEETINGS: [Meeting; 6] = [
    Meeting::OwnFunction,
    Meeting::OtherFunction,
    Meeting::SameDomain,
    Meeting::OtherDomain,
    Meeting::All,
    Meeting::EmptyDomain,
];

/// Two entries whose patterns are alike but for one meeting or several, and
/// the `all` at one's end: whether they clash is decided by a domain.
pub fn meeting(dice: &mut Dice, meeting: Meeting) -> Policy {
    // Two domains with functions, in any order, and one with none.
    let mut functions = vec![0, 1];
    for _ in 0..dice.below(3) {
        let place = dice.below(functions.len() + 1);
        functions.insert(place, dice.below(2) as u16);
    }
    if dice.percent(50) {
        functions.reverse();
    }
    let mut patterns = [Vec::new(), Vec::new()];
    let mut put = |pair: [Element; 2], is_turned: bool| {
        let (first, second) = match is_turned {
            true => (pair[1], pair[0]),
            false => (pair[0], pair[1]),
        };
        patterns[0].push(first);
        patterns[1].push(second);
    };
    for _ in 0..dice.from_to(1, 3) {
        for _ in 0..dice.below(2) {
            let alike = *dice.pick(&[Element::All, Element::Function(0), Element::Domain(1)]);
            put([alike; 2], false);
        }
        put(pair(dice, &functions, meeting), dice.percent(50));
    }
    // Mostly a top that both may have.
    if dice.percent(80) {
        put([Element::Domain(0); 2], false);
    }
    patterns[dice.below(2)].push(Element::All);
    of_two(functions, 3, patterns, Uid::All)
}

/// The two elements of a meeting, the domain first.
fn pair(dice: &mut Dice, functions: &[u16], meeting: Meeting) -> [Element; 2] {
    let domain = dice.below(2) as u16;
    let mut function_of = |domain: u16| {
        let own = (0..).zip(functions).filter(|(_, of)| **of == domain);
        let own: Vec<u16> = own.map(|(function, _)| function).collect();
        Element::Function(*dice.pick(&own))
    };
    match meeting {
        Meeting::OwnFunction => [Element::Domain(domain), function_of(domain)],
        Meeting::OtherFunction => [Element::Domain(domain), function_of(1 - domain)],
        Meeting::SameDomain => [Element::Domain(domain); 2],
        Meeting::OtherDomain => [Element::Domain(domain), Element::Domain(1 - domain)],
        Meeting::All => [Element::Domain(domain), Element::All],
        Meeting::EmptyDomain => [
            Element::Domain(2),
            *dice.pick(&[Element::Domain(2), Element::All]),
        ],
    }
}

/// Few entries with patterns of `all` alone that bind a namespace, which most of
/// their objects ask for: the numbers of an event decide.
fn open(dice: &mut Dice) -> Policy {
    let mut policy = Policy {
        object_domains: 1,
        subject_domains: 2,
        objects: vec![0; 2],
        functions: vec![0, 0, 1],
        entries: Vec::new(),
    };
    add_entries(dice, &mut policy, 4, 2);
    for entry in &mut policy.entries {
        let bound = Context {
            namespace: Sort::Variable,
            ..Context::all()
        };
        for descriptor in entry.can_read.iter_mut().chain(&mut entry.can_write) {
            descriptor.context = match dice.percent(85) {
                true => bound.clone(),
                false => Context::all(),
            };
        }
        entry.context.pattern.fill(Element::All);
        entry.context.namespace = Sort::Variable;
    }
    while let Some(later) = first_repeat(&policy.entries) {
        policy.entries.remove(later);
    }
    policy
}

/// A policy with many entries, long patterns and many domains.
pub fn large(dice: &mut Dice) -> Policy {
    let (object_domains, subject_domains) = (128, dice.from_to(100, 128) as u16);
    let any = |dice: &mut Dice, domains: u16| {
        let count = *dice.pick(&[1_024, 1_023, 700]);
        members(dice, domains, count)
    };
    let mut policy = Policy {
        object_domains,
        subject_domains,
        objects: any(dice, object_domains),
        functions: any(dice, subject_domains),
        entries: Vec::new(),
    };
    add_entries(dice, &mut policy, 129, 16);
    policy
}

fn add_entries(dice: &mut Dice, policy: &mut Policy, below: usize, elements: usize) {
    if policy.subject_domains == 0 {
        return;
    }
    let mut left = 256;
    for _ in 0..dice.below(below) {
        let entry = entry(dice, policy, elements, left.min(4));
        left -= entry.can_read.len() + entry.can_write.len();
        policy.entries.push(entry);
        if first_repeat(&policy.entries).is_some() {
            policy.entries.pop();
        }
    }
}

fn entry(dice: &mut Dice, policy: &Policy, elements: usize, descriptors: usize) -> Entry {
    let context = context(dice, policy, elements, None);
    let reads = dice.below(descriptors + 1);
    let writes = dice.below(descriptors - reads + 1);
    let mut some = |count: usize| -> Vec<Descriptor> {
        let one = |_| Descriptor {
            objects: grant(dice, policy.object_domains),
            context: self::context(dice, policy, elements, Some(&context)),
        };
        (0..count).map(one).collect()
    };
    let (can_read, can_write) = (some(reads), some(writes));
    Entry {
        subject: dice.below(usize::from(policy.subject_domains).min(3)) as u16,
        can_call: grant(dice, policy.subject_domains),
        can_return: grant(dice, policy.subject_domains),
        can_read,
        can_write,
        context,
    }
}

fn grant(dice: &mut Dice, domains: u16) -> Grant {
    if dice.percent(15) {
        return Grant::All;
    }
    let chance = *dice.pick(&[0, 30, 60, 100]);
    let some = (0..domains).filter(|_| dice.percent(chance));
    Grant::Domains(some.collect())
}

/// A function or a subject domain, which there must be. Mostly one of few, so
/// that patterns meet.
fn named(dice: &mut Dice, policy: &Policy) -> Element {
    let (functions, domains) = (policy.functions.len(), policy.subject_domains.into());
    let few = match dice.percent(8) {
        true => usize::MAX,
        false => 5,
    };
    match functions == 0 || dice.percent(40) {
        true => Element::Domain(dice.below(few.min(domains)) as u16),
        false => Element::Function(dice.below(few.min(functions)) as u16),
    }
}

fn context(dice: &mut Dice, policy: &Policy, elements: usize, outer: Option<&Context>) -> Context {
    let wild = *dice.pick(&[20, 50, 80, 100]);
    let element = |dice: &mut Dice| match dice.percent(wild) {
        true => Element::All,
        false => named(dice, policy),
    };
    let length = if dice.percent(4) {
        16
    } else {
        dice.from_to(1, elements)
    };
    let pattern = (0..length).map(|_| element(dice)).collect();
    let mut uid = *dice.pick(&[Uid::All, Uid::Variable, Uid::Root, Uid::User]);
    let [mut gid, mut namespace] =
        [(); 2].map(|()| *dice.pick(&[Sort::All, Sort::All, Sort::Variable]));
    if let Some(outer) = outer {
        if uid == Uid::Variable && outer.uid != Uid::Variable {
            uid = Uid::All;
        }
        // What the entry does not bind is `all`, the lesser sort.
        gid = gid.min(outer.gid);
        namespace = namespace.min(outer.namespace);
        if dice.percent(25) {
            return Context::all();
        }
    }
    Context {
        pattern,
        uid,
        gid,
        namespace,
    }
}

/// Changes one word or bit, anywhere or where it matters, or the length.
pub fn damage(dice: &mut Dice, words: &mut Vec<u16>) {
    if words.len() < TABLE_WORDS || dice.below(40) == 0 {
        let length = *dice.pick(&[0, 1, 32, 16_382, 16_383]);
        words.truncate(length);
        return;
    }
    if dice.percent(35) {
        edge(dice, words);
        return;
    }
    let place = place(dice, words);
    let word = words[place];
    words[place] = match dice.below(6) {
        0 | 1 => word ^ 1 << dice.below(16),
        2 => word.wrapping_add(1),
        3 => word.wrapping_sub(1),
        4 => dice.below(20) as u16,
        _ => *dice.pick(&[
            0, 1, 2, 16, 17, 128, 129, 255, 256, 257, 1_024, 1_025, 1_026, 1_152, 1_153, 65_535,
        ]),
    };
}

/// Puts a number at its count or limit, a bit just past its set, or one
/// principal in two entries. The table need not be well formed before.
fn edge(dice: &mut Dice, words: &mut [u16]) {
    let [_, object_domains, subject_domains, objects, functions, entries] = words[..6] else {
        return;
    };
    let entries = usize::from(entries).min(128);
    let entry = ENTRIES_AT + ENTRY_WORDS * dice.below(entries);
    let other = ENTRIES_AT + ENTRY_WORDS * dice.below(entries);
    let descriptor = DESCRIPTORS_AT + DESCRIPTOR_WORDS * dice.below(5);
    let context = *dice.pick(&[entry, descriptor]);
    let (place, word) = match dice.below(16) {
        0 => (
            OBJECTS_AT + dice.below(objects.into()).min(1_023),
            object_domains,
        ),
        1 => (
            FUNCTIONS_AT + dice.below(functions.into()).min(1_023),
            subject_domains,
        ),
        2 => (entry + 20, subject_domains),
        3 | 4 => (
            context + PATTERN_AT + dice.below(4),
            functions.wrapping_add(*dice.pick(&[0, 1, 2])),
        ),
        5 | 6 => (
            context + PATTERN_AT + dice.below(4),
            // The last domain, the first past it, and the last word before any.
            *dice.pick(&[
                DOMAIN_WORDS_AT
                    .wrapping_add(subject_domains)
                    .wrapping_sub(1),
                DOMAIN_WORDS_AT.wrapping_add(subject_domains),
                DOMAIN_WORDS_AT - 1,
            ]),
        ),
        7 => (context, *dice.pick(&[0, 1, 16, 17])),
        8 | 9 => (
            context + dice.from_to(UID_AT, NAMESPACE_AT),
            dice.below(5) as u16,
        ),
        10 => (
            entry + dice.from_to(21, 22),
            *dice.pick(&[0, 1, 255, 256, 257]),
        ),
        11 => return bit(dice, &mut words[entry + 24..], subject_domains),
        12 => return bit(dice, &mut words[entry + 33..], subject_domains),
        13 => return bit(dice, &mut words[descriptor + 20..], object_domains),
        // Context and subject: the whole principal.
        _ => return words.copy_within(entry..entry + 21, other),
    };
    words[place] = word;
}

/// Sets a bit of a grant: the last one of its set, or the first past it.
fn bit(dice: &mut Dice, grant: &mut [u16], count: u16) {
    let domain = usize::from(count.min(127)).saturating_sub(dice.below(2));
    grant[1 + domain / 16] |= 1 << (domain % 16);
}

/// A word of any region, mostly near what is used.
fn place(dice: &mut Dice, words: &[u16]) -> usize {
    let near = |dice: &mut Dice, count: u16| dice.below(usize::from(count).min(1_000) + 2);
    match dice.below(12) {
        0 | 1 => dice.below(8),
        2 => dice.below(OBJECTS_AT),
        3 => OBJECTS_AT + near(dice, words[3]),
        4 => FUNCTIONS_AT + near(dice, words[4]),
        5..=7 => ENTRIES_AT + ENTRY_WORDS * near(dice, words[5].min(120)) + dice.below(ENTRY_WORDS),
        8 | 9 => {
            let block = dice.below(12) * dice.below(2) + dice.below(4);
            DESCRIPTORS_AT + DESCRIPTOR_WORDS * block + dice.below(DESCRIPTOR_WORDS)
        }
        10 => UNUSED_AT + dice.below(TABLE_WORDS - UNUSED_AT),
        _ => dice.below(TABLE_WORDS),
    }
}
