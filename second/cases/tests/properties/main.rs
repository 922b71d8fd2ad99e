//! Properties of the second program over generated cases.
//!
//! The count is small by default; `CASES=100000` runs more, and `SEED` another
//! run of cases.

mod domains;
mod line_ends;
mod namespaces;
mod quick_judge;

use cases::{events, limits, tables, texts, Dice};
use second::policy::{Context, Element, Entry, Grant, Policy, Uid};
use second::*;
use std::collections::BTreeMap;

fn number(name: &str, default: u64) -> u64 {
    let set = std::env::var(name).ok();
    set.and_then(|value| value.parse().ok()).unwrap_or(default)
}

fn each_case(share: u64, mut run: impl FnMut(&mut Dice)) {
    let (seed, count) = (number("SEED", 1), number("CASES", 10_000));
    for case in 0..count / share {
        run(&mut Dice::of_case(seed, case));
    }
}

/// Each limit and large text, then any others.
fn each_text(mut run: impl FnMut(&mut Dice, &[u8])) {
    for (case, text) in (0..).map_while(texts::first).enumerate() {
        run(&mut Dice::new(case as u64), &text);
    }
    each_case(1, |dice| {
        let text = texts::text(dice);
        run(dice, &text);
    });
}

type Mix = BTreeMap<String, u64>;

fn note(mix: &mut Mix, outcome: impl ToString) {
    *mix.entry(outcome.to_string()).or_default() += 1;
}

/// Prints the mix and asks that each outcome occurred.
fn show(name: &str, mix: &Mix, needed: &[&str]) {
    println!("{name}: {mix:?}");
    for outcome in needed {
        assert!(mix.contains_key(*outcome), "{name}: no case of {outcome}");
    }
}

/// The numbers that a filler answers with, 0 where it writes.
const FILLINGS: [&str; 13] = [
    "0", "2", "3", "4", "5", "6", "7", "8", "9", "10", "11", "30", "31",
];

#[test]
fn texts_are_answered_and_filling_keeps_the_meaning() {
    let (mut mix, mut fills) = (Mix::new(), Mix::new());
    each_text(|dice, text| {
        let mut table = vec![0xAAAA; TABLE_WORDS + 2];
        let answer = read(text, &mut table);
        assert_eq!(table[TABLE_WORDS..], [0xAAAA, 0xAAAA]);
        note(&mut mix, answer.err().map_or(0, |r| r.number));
        match answer {
            Err(refusal) => {
                assert!(table[..TABLE_WORDS].iter().all(|&word| word == 0));
                assert_eq!(policy_of(text), Err(refusal));
                assert_eq!(refusal.line == 0, refusal.number == 2);
                assert_eq!(lookup(text, Map::Objects, 0), (0, 0));
            }
            Ok(()) => accepted(text, &table),
        }
        let page = first_fault(text);
        assert!(page.is_none() || page == answer.err());
        check_fill(dice, text, answer, &mut fills);
    });
    show(
        "read",
        &mix,
        &["0", "2", "3", "4", "5", "6", "7", "8", "9", "10", "11"],
    );
    show("fill", &fills, &FILLINGS);
}

/// An accepted text: its table is well formed, and filling keeps all.
fn accepted(text: &[u8], table: &[u16]) {
    let policy = policy_of(text).unwrap();
    assert!(well_formed(table));
    assert_eq!(decode(table).as_ref(), Some(&policy));
    assert_eq!(encode(&policy).unwrap(), table[..TABLE_WORDS]);
    let filled = filled(text).unwrap();
    for (map, count) in [
        (Map::Objects, policy.object_domains),
        (Map::Subjects, policy.subject_domains),
    ] {
        for domain in 0..usize::from(count) + 2 {
            let name = |text: &[u8]| {
                let (start, length) = lookup(text, map, domain);
                text[start..start + length].to_vec()
            };
            assert_eq!(name(text).is_empty(), domain >= count.into());
            if filled.len() <= 65_536 {
                assert_eq!(name(text), name(&filled));
            }
        }
    }
    if filled.len() <= 65_536 {
        assert_eq!(second::filled(&filled).as_ref(), Ok(&filled));
        assert_eq!(policy_of(&filled), Ok(policy));
        let mut again = vec![1; TABLE_WORDS];
        assert_eq!(read(&filled, &mut again), Ok(()));
        assert_eq!(again, table[..TABLE_WORDS]);
    }
}

/// The names of a text, each with its kind and line.
fn names_of(text: &[u8]) -> Vec<(u32, u32, &[u8])> {
    let mut words = vec![0; LIST_WORDS];
    let size = list(text, &mut words).unwrap();
    let fours = words[..size].chunks_exact(4);
    let name = |start: u32, bytes: u32| &text[start as usize..][..bytes as usize];
    fours
        .map(|four| (four[0], four[1], name(four[2], four[3])))
        .collect()
}

#[test]
fn lists_have_every_name_once_and_in_order() {
    each_text(|dice, text| {
        let policy = match policy_of(text) {
            Ok(policy) => policy,
            Err(refusal) => {
                let mut words = [7; 20];
                assert_eq!(list(text, &mut words), Err(refusal));
                assert_eq!(words, [7; 20]);
                return;
            }
        };
        let all = names_of(text);
        assert!(all.is_sorted_by_key(|(_, line, _)| line));
        let count = |kind| all.iter().filter(|name| name.0 == kind).count();
        let counts = [
            policy.object_domains.into(),
            policy.objects.len(),
            policy.subject_domains.into(),
            policy.functions.len(),
            policy.entries.len(),
        ];
        assert_eq!([1, 2, 3, 4, 5].map(count), counts);
        numbers_are_those_of_the_policy(&policy, &all);
        let filled = filled(text).unwrap();
        if filled.len() <= 65_536 {
            let told = |all: Vec<(u32, u32, &[u8])>| -> Vec<(u32, Vec<u8>)> {
                let one = |(kind, _, name): (u32, u32, &[u8])| (kind, name.to_vec());
                all.into_iter().map(one).collect()
            };
            assert_eq!(told(names_of(&filled)), told(all.clone()));
        }
        names_are_found(dice, text, &all);
    });
}

/// A member belongs to the domain that was named last before it; an entry's
/// name is that of its subject.
fn numbers_are_those_of_the_policy(policy: &Policy, all: &[(u32, u32, &[u8])]) {
    let mut counts = [0usize; 6];
    let mut subjects = Vec::new();
    for &(kind, _, name) in all {
        let number = counts[kind as usize];
        let domain = |kind: usize| counts[kind] as u16 - 1;
        match kind {
            2 => assert_eq!(policy.objects[number], domain(1)),
            3 => subjects.push(name),
            4 => assert_eq!(policy.functions[number], domain(3)),
            5 => {
                let subject = policy.entries[number].subject;
                assert_eq!(subjects[usize::from(subject)], name);
            }
            _ => {}
        }
        counts[kind as usize] += 1;
    }
}

/// Each name is found at its number; an entry at that of its subject's first.
fn names_are_found(dice: &mut Dice, text: &[u8], all: &[(u32, u32, &[u8])]) {
    let mut words = vec![0; LIST_WORDS];
    let size = list(text, &mut words).unwrap();
    for _ in 0..all.len().min(20) {
        let (kind, _, name) = *dice.pick(all);
        let of_kind: Vec<&[u8]> = all.iter().filter(|n| n.0 == kind).map(|n| n.2).collect();
        let number = find(text, &words[..size], kind, name);
        assert_eq!(of_kind[number], name);
        assert!(!of_kind[..number].contains(&name));
        let none = find(text, &words[..size], kind, b"[");
        assert_eq!(none, of_kind.len());
    }
}

fn check_fill(dice: &mut Dice, text: &[u8], answer: Result<(), Refusal>, fills: &mut Mix) {
    let room = match filled(text) {
        Ok(filled) if dice.percent(80) => filled.len() + dice.below(4),
        Ok(filled) => filled.len().saturating_sub(1 + dice.below(3)),
        Err(_) => dice.below(100),
    };
    let mut output = vec![0xEE; room];
    let fill = fill(text, &mut output);
    note(fills, fill.err().map_or(0, |r| r.number));
    match fill {
        Ok(length) => {
            assert_eq!(output[..length], filled(text).unwrap()[..]);
            assert!(output[length..].iter().all(|&byte| byte == 0xEE));
        }
        Err(refusal) => {
            assert!(output.iter().all(|&byte| byte == 0xEE));
            match answer {
                Ok(()) => assert!(matches!(refusal.number, 30 | 31) && refusal.line == 0),
                Err(first) => assert_eq!(refusal, first),
            }
        }
    }
}

#[test]
fn any_bytes_and_words_are_answered() {
    each_case(1, |dice| {
        let few = dice.percent(50);
        let byte = |dice: &mut Dice| match few {
            true => *dice.pick(b"\n\n\r  -:#a[],|"),
            false => dice.next() as u8,
        };
        let bytes: Vec<u8> = (0..dice.below(80)).map(|_| byte(dice)).collect();
        let damaged = texts::damaged(dice);
        for text in [&bytes, &damaged] {
            // The page alone, whatever the bytes are.
            assert!(matches!(page(text).map_or(0, |r| r.number), 0 | 4 | 5 | 9));
            let _ = program::answer(text);
        }
        let words: Vec<u16> = (0..dice.below(50)).map(|_| dice.next() as u16).collect();
        assert!(!well_formed(&words));
        let event = events::event(dice, None);
        let verdict = judge(&words, event.operation, event.target, &event.lent());
        assert_eq!(verdict, Verdict::Refused(20));
    });
}

#[test]
fn limits_are_met_and_passed() {
    for limit in 0..limits::LIMITS {
        for past in [false, true] {
            let (text, number) = limits::text(limit, past);
            let answer = fill(&text, &mut vec![0; 65_536]);
            assert_eq!(
                answer.err().map_or(0, |r| r.number),
                number,
                "{limit} {past}"
            );
        }
    }
    for limit in [limits::LONG_TEXT, limits::LONG_BY_CRS] {
        assert_eq!(limits::text(limit, false).0.len(), 65_536);
        assert_eq!(limits::text(limit, true).0.len(), 65_537);
    }
    assert_eq!(
        filled(&limits::text(limits::LONG_FILLED, false).0)
            .unwrap()
            .len(),
        65_536
    );
    assert_eq!(
        filled(&limits::text(limits::LONG_FILLED, true).0)
            .unwrap()
            .len(),
        65_537
    );
}

#[test]
fn most_generated_good_texts_are_good() {
    let (mut good, mut all) = (0, 0);
    each_case(10, |dice| {
        all += 1;
        good += u64::from(policy_of(&texts::good(dice)).is_ok());
    });
    assert_eq!(good, all);
}

/// The words a table uses, asked word by word: another way to say "zeros in
/// unused words".
fn is_used(policy: &Policy, place: usize) -> bool {
    let context = |place: usize, pattern: usize| place < 4 + pattern;
    let grant = |place: usize, start: usize| (start..start + 9).contains(&place);
    let descriptors: Vec<_> = policy
        .entries
        .iter()
        .flat_map(|e| e.descriptors())
        .collect();
    match place {
        0..32 => place < 6,
        32..1_056 => place - 32 < policy.objects.len(),
        1_056..2_080 => place - 1_056 < policy.functions.len(),
        2_080..7_712 => {
            let (block, at) = ((place - 2_080) / 44, (place - 2_080) % 44);
            policy.entries.get(block).is_some_and(|entry| {
                let head = context(at, entry.context.pattern.len()) || (20..23).contains(&at);
                head || grant(at, 24) || grant(at, 33)
            })
        }
        7_712..15_904 => {
            let (block, at) = ((place - 7_712) / 32, (place - 7_712) % 32);
            descriptors
                .get(block)
                .is_some_and(|d| context(at, d.context.pattern.len()) || grant(at, 20))
        }
        _ => false,
    }
}

#[test]
fn tables_round_trip_and_unused_words_count() {
    let mut mix = Mix::new();
    each_case(1, |dice| {
        let policy = tables::policy(dice);
        let mut words = encode(&policy).expect("sound");
        assert_eq!(decode(&words).as_ref(), Some(&policy));
        let place = dice.below(TABLE_WORDS);
        words[place] ^= 1 << dice.below(16);
        if !is_used(&policy, place) {
            assert!(!well_formed(&words), "unused word {place}");
        }
        let mut words = tables::doubtful_table(dice);
        note(&mut mix, well_formed(&words));
        if let Some(policy) = decode(&words) {
            assert_eq!(encode(&policy).unwrap(), words[..TABLE_WORDS]);
            words.push(dice.next() as u16);
            assert!(well_formed(&words));
            assert!(!well_formed(&words[..TABLE_WORDS - 1]));
        }
    });
    show("well_formed", &mix, &["false", "true"]);
}

/// The match of document 01 and request d, word for word, for short patterns
/// and stacks.
fn matches_as_said(functions: &[u16], pattern: &[Element], stack: &[u16]) -> bool {
    let after = |rest, stack: &[u16]| matches_as_said(functions, rest, &stack[1..]);
    match (pattern, stack) {
        ([], _) => stack.is_empty(),
        ([Element::All, rest @ ..], _) => {
            matches_as_said(functions, rest, stack) || !stack.is_empty() && after(pattern, stack)
        }
        (_, []) => false,
        ([Element::Function(function), rest @ ..], [frame, ..]) => {
            function == frame && after(rest, stack)
        }
        ([Element::Domain(domain), rest @ ..], [frame, ..]) => {
            let is_listed = usize::from(*frame) < functions.len();
            is_listed && functions[usize::from(*frame)] == *domain && after(rest, stack)
        }
    }
}

#[test]
fn matching_is_as_said() {
    let mut mix = Mix::new();
    // Function 4 and those after it are unlisted; domain 3 has no functions.
    let functions = [0, 1, 0, 2];
    each_case(1, |dice| {
        for _ in 0..5 {
            let element = |dice: &mut Dice| match dice.below(8) {
                0..=3 => Element::All,
                number @ (4 | 5) => Element::Function(number as u16 - 2),
                _ => Element::Domain(*dice.pick(&[0, 0, 1, 2, 3])),
            };
            let pattern: Vec<Element> = (0..dice.below(6)).map(|_| element(dice)).collect();
            let stack: Vec<u16> = (0..dice.below(7))
                .map(|_| dice.from_to(1, 4) as u16)
                .collect();
            let answer = matches(&functions, &pattern, &stack);
            assert_eq!(answer, matches_as_said(&functions, &pattern, &stack));
            note(&mut mix, answer);
        }
    });
    show("matches", &mix, &["false", "true"]);
}

#[test]
fn events_are_judged() {
    let mut mix = Mix::new();
    each_case(1, |dice| {
        let table = tables::table(dice);
        let policy = decode(&table);
        for _ in 0..8 {
            let event = events::event(dice, policy.as_ref());
            let verdict = judge(&table, event.operation, event.target, &event.lent());
            note(
                &mut mix,
                outcome(verdict, event.operation, event.allocation.is_empty()),
            );
        }
    });
    let needed = [
        "allowed 1 static",
        "allowed 1 allocated",
        "allowed 2 static",
        "allowed 2 allocated",
        "allowed 3",
        "allowed 4",
        "inside",
        "violation 1",
        "violation 2",
        "violation 3",
        "violation 4",
        "refused 20",
        "refused 21",
        "refused 22",
        "refused 23",
    ];
    show("judge", &mix, &needed);
}

fn outcome(verdict: Verdict, operation: u16, is_static: bool) -> String {
    match verdict {
        Verdict::Inside => "inside".to_string(),
        Verdict::Allowed(_) if operation > 2 => format!("allowed {operation}"),
        Verdict::Allowed(_) if is_static => format!("allowed {operation} static"),
        Verdict::Allowed(_) => format!("allowed {operation} allocated"),
        Verdict::Violation(number) => format!("violation {number}"),
        Verdict::Refused(number) => format!("refused {number}"),
    }
}

/// Every stack of at most six frames over few functions and one that is
/// unlisted, shortest and lowest first.
fn stacks(functions: u16) -> Vec<Vec<u16>> {
    let mut all = vec![];
    let mut layer: Vec<Vec<u16>> = vec![vec![]];
    for _ in 0..6 {
        layer = layer
            .iter()
            .flat_map(|stack| (0..=functions).map(|f| [&stack[..], &[f]].concat()))
            .collect();
        all.extend(layer.clone());
    }
    all
}

/// These for every number of functions up to one.
fn stacks_of(most: u16) -> Vec<Vec<Vec<u16>>> {
    (0..=most).map(stacks).collect()
}

#[test]
fn clashes_are_real_and_clear_is_clear() {
    let mut mix = Mix::new();
    let stacks = stacks_of(4);
    each_case(1, |dice| {
        let table = tables::table(dice);
        let mut witness = vec![0x5555; *dice.pick(&[0, 29, 30, 30, 30, 30, 30, 31, 31, 40])];
        let before = witness.clone();
        let answer = overlap(&table, &mut witness);
        let policy = decode(&table);
        if let Overlap::Refused(number) = answer {
            note(&mut mix, number);
            assert_eq!(witness, before);
            assert_eq!(number == 20, policy.is_none());
            return;
        }
        let policy = policy.unwrap();
        assert_eq!(witness[30..], before[30..]);
        note(&mut mix, check_witness(&policy, answer, &witness));
        if policy.functions.len() <= 4 && dice.percent(20) {
            assert_eq!(answer, brute(&policy, &witness, &stacks), "{policy:?}");
        }
    });
    let needed = [
        "20",
        "40",
        "clear",
        "clash of  1",
        "clash of  2",
        "clash of  4",
    ];
    show("overlap", &mix, &needed);
}

/// A witness is matched by both entries and at most 30 deep, then zeros.
fn check_witness(policy: &Policy, answer: Overlap, witness: &[u16]) -> String {
    let Overlap::Clash {
        lower,
        higher,
        length,
        uid,
    } = answer
    else {
        assert!(witness[..30].iter().all(|&word| word == 0));
        return "clear".to_string();
    };
    let stack = &witness[..usize::from(length)];
    assert!((1..=30).contains(&length));
    assert!(witness[stack.len()..30].iter().all(|&word| word == 0));
    for entry in [lower, higher] {
        assert!(entry_matches(policy, entry, stack, uid), "{policy:?}");
    }
    format!("clash of {length:>2}")
}

fn entry_matches(policy: &Policy, entry: u8, stack: &[u16], uid: u8) -> bool {
    let entry = &policy.entries[usize::from(entry)];
    let top = policy.functions.get(usize::from(*stack.last().unwrap()));
    let uid_fits = match entry.context.uid {
        Uid::Root => uid == 0,
        Uid::User => uid == 1,
        _ => true,
    };
    let is_match = || matches(&policy.functions, &entry.context.pattern, stack);
    top == Some(&entry.subject) && uid_fits && is_match()
}

/// The report by trying every stack of at most six frames; a longer answer is
/// taken as it is.
fn brute(policy: &Policy, witness: &[u16], stacks: &[Vec<Vec<u16>>]) -> Overlap {
    let entries = policy.entries.len() as u8;
    let stacks = &stacks[policy.functions.len()];
    let answer = overlap(&encode(policy).unwrap(), &mut [0; 30]);
    for lower in 0..entries {
        for higher in lower + 1..entries {
            if let Some((stack, uid)) = brute_pair(policy, lower, higher, stacks) {
                assert_eq!(witness[..stack.len()], stack[..], "not the lowest");
                let length = stack.len() as u8;
                return Overlap::Clash {
                    lower,
                    higher,
                    length,
                    uid,
                };
            }
            match answer {
                Overlap::Clash {
                    lower: one,
                    higher: other,
                    length: 7..,
                    ..
                } if (one, other) == (lower, higher) => return answer,
                _ => {}
            }
        }
    }
    Overlap::Clear
}

/// The first stack that two entries both match under some uid.
fn brute_pair<'s>(
    policy: &Policy,
    lower: u8,
    higher: u8,
    stacks: &'s [Vec<u16>],
) -> Option<(&'s Vec<u16>, u8)> {
    let both = [lower, higher];
    let is_real = |stack: &&Vec<u16>| {
        let under = |uid| both.iter().all(|&e| entry_matches(policy, e, stack, uid));
        under(0) || under(1)
    };
    let stack = stacks.iter().find(is_real)?;
    let is_user = |&e: &u8| policy.entries[usize::from(e)].context.uid == Uid::User;
    Some((stack, both.iter().any(is_user).into()))
}

#[test]
fn no_table_makes_the_report_slow() {
    for named in [Element::Function, Element::Domain] {
        let policy = slow_policy(named);
        let start = std::time::Instant::now();
        let answer = overlap(&encode(&policy).unwrap(), &mut [0; 30]);
        println!("slow report: {:?}", start.elapsed());
        assert_eq!(answer, Overlap::Clear);
        assert!(start.elapsed().as_secs() < 10);
    }
}

/// Every pair must be searched to its end: the tops are all different.
fn slow_policy(named: fn(u16) -> Element) -> Policy {
    let entry = |number: u16| {
        let element = |place: u16| match place % 2 {
            0 => Element::All,
            _ => named((number >> (place % 7)) % 3),
        };
        let mut pattern: Vec<Element> = (0..15).map(element).collect();
        pattern.push(Element::Function(10 + number));
        Entry {
            subject: 0,
            context: Context {
                pattern,
                ..Context::all()
            },
            can_call: Grant::All,
            can_return: Grant::All,
            can_read: vec![],
            can_write: vec![],
        }
    };
    Policy {
        object_domains: 0,
        subject_domains: 3,
        objects: vec![],
        functions: [vec![0; 1_022], vec![1, 2]].concat(),
        entries: (0..128).map(entry).collect(),
    }
}

/// The quick reader takes exactly the texts that the plain one takes, and
/// leaves the same words.
#[test]
fn the_quick_reader_answers_alike() {
    let mut mix = Mix::new();
    each_text(|dice, text| {
        let room = *dice.pick(&[0, 16_383, 16_384, 16_384, 16_384, 16_384, 16_390]);
        note(&mut mix, same_reading(text, room));
    });
    show(
        "quick",
        &mix,
        &["0", "1", "2", "3", "4", "5", "6", "7", "8", "9", "10", "11"],
    );
}

/// The quick filler answers as the plain one does, and leaves the same bytes.
#[test]
fn the_quick_filler_answers_alike() {
    let mut mix = Mix::new();
    each_text(|dice, text| {
        let size = filled(text).map_or(1, |filled| filled.len());
        let room = *dice.pick(&[0, size - 1, size, size, size, size + 1, 65_536]);
        note(&mut mix, same_filling(text, room));
    });
    show("quick fill", &mix, &FILLINGS);
}

/// The number that both fillers answer with.
fn same_filling(text: &[u8], room: usize) -> u16 {
    let (mut one, mut other) = (vec![0xAA; room], vec![0xAA; room]);
    let answer = fill(text, &mut one);
    assert_eq!(quick::fill(text, &mut other), answer);
    assert!(one == other);
    answer.err().map_or(0, |refusal| refusal.number)
}

/// The number that both readers answer with.
fn same_reading(text: &[u8], room: usize) -> u16 {
    let (mut one, mut other) = (vec![0xAAAA; room], vec![0xAAAA; room]);
    let answer = read(text, &mut one);
    assert_eq!(quick::read(text, &mut other), answer);
    assert_eq!(one, other);
    let takes = quick::takes(text, &mut [0; TABLE_WORDS]);
    assert_eq!(takes, policy_of(text).is_ok());
    answer.err().map_or(0, |refusal| refusal.number)
}
