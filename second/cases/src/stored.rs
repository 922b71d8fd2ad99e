//! Stored cases: inputs and the second program's answers as plain bytes.
//!
//! The layout is told in `crates/replay/data/README.md`: little-endian numbers,
//! lengths first, so that a program without strings or heap can replay them.

use crate::dice::Dice;
use crate::events::{self, OwnEvent};
use crate::{ends, fillings, findings, listings, names, namespaces, patterns};
use crate::{readings, tables, texts};
use second::{decode, fill, filler, first_fault, judge, list, overlap, read, Refusal, TABLE_WORDS};

/// The codes of the trials' operations.
const READ: u16 = 1;
const CALL: u16 = 3;
const RETURN: u16 = 4;

/// The seed of all stored cases.
const SEED: u64 = 2_026;

/// What each word of a table holds before it is read into, each byte of an
/// output before it is written, and each word of a list.
pub const UNTOUCHED: u8 = 7;

/// Each file's name and its bytes.
pub fn files() -> [(&'static str, Vec<u8>); 9] {
    [
        ("trials.cases", trials()),
        ("judge.cases", judge_cases()),
        ("overlap.cases", overlap_cases()),
        ("page.cases", page_cases()),
        ("read.cases", read_cases()),
        ("fill.cases", fill_cases()),
        ("name.cases", name_cases()),
        ("list.cases", list_cases()),
        ("find.cases", find_cases()),
    ]
}

fn put_u16(out: &mut Vec<u8>, number: u16) {
    out.extend_from_slice(&number.to_le_bytes());
}

fn put_u32(out: &mut Vec<u8>, number: u32) {
    out.extend_from_slice(&number.to_le_bytes());
}

fn put_u64(out: &mut Vec<u8>, number: u64) {
    out.extend_from_slice(&number.to_le_bytes());
}

/// A length in thirty-two bits, then the bytes.
fn put_bytes(out: &mut Vec<u8>, bytes: &[u8]) {
    put_u32(out, bytes.len() as u32);
    out.extend_from_slice(bytes);
}

/// A length in sixteen bits, then the words.
fn put_words(out: &mut Vec<u8>, words: &[u16]) {
    put_u16(out, words.len() as u16);
    for &word in words {
        put_u16(out, word);
    }
}

/// A length in thirty-two bits, then the words of a list.
fn put_list(out: &mut Vec<u8>, list: &[u32]) {
    put_u32(out, list.len() as u32);
    for &word in list {
        put_u32(out, word);
    }
}

/// The stretches of a table that hold its words that are not 0: first word,
/// then the words. Gaps of up to two zeros do not end a stretch.
pub fn runs(table: &[u16]) -> Vec<(u16, Vec<u16>)> {
    let mut runs: Vec<(u16, Vec<u16>)> = Vec::new();
    for (place, &word) in table.iter().enumerate() {
        if word == 0 {
            continue;
        }
        match runs.last_mut() {
            Some((first, words)) if place <= usize::from(*first) + words.len() + 2 => {
                words.resize(place - usize::from(*first), 0);
                words.push(word);
            }
            _ => runs.push((place as u16, vec![word])),
        }
    }
    runs
}

fn put_table(out: &mut Vec<u8>, table: &[u16]) {
    let runs = runs(table);
    put_u32(out, table.len() as u32);
    put_u16(out, runs.len() as u16);
    for (first, words) in runs {
        put_u16(out, first);
        put_words(out, &words);
    }
}

/// An event and the verdict on it under a table.
fn put_event(out: &mut Vec<u8>, table: &[u16], event: &OwnEvent) {
    let verdict = judge(table, event.operation, event.target, &event.lent());
    put_u16(out, event.operation);
    put_u16(out, event.target);
    put_u32(out, event.uid);
    put_u32(out, event.gid);
    put_u32(out, event.namespace);
    put_u32(out, event.allocation_uid);
    put_u32(out, event.allocation_gid);
    put_u32(out, event.allocation_namespace);
    put_words(out, &event.stack);
    put_words(out, &event.allocation);
    put_u32(out, verdict.answer().packed() as u32);
}

/// Trials P1 to P7 of document 01, at uid 5: main is function 0, add 1, sum 2.
fn trials() -> Vec<u8> {
    let events: [(&[u16], u16, u16); 7] = [
        (&[0, 1], RETURN, 0),
        (&[0, 1], CALL, 2),
        (&[0, 1], CALL, 0),
        (&[0], CALL, 1),
        (&[0, 9], CALL, 0),
        (&[0, 1], READ, 7),
        (&[0, 1], READ, 0),
    ];
    let policy = second::policy_of(second::EXAMPLE.as_bytes()).ok();
    let table = policy.and_then(|p| second::encode(&p)).unwrap_or_default();
    let mut out = Vec::new();
    put_u32(&mut out, 1);
    put_table(&mut out, &table);
    put_u32(&mut out, events.len() as u32);
    for (stack, operation, target) in events {
        let event = OwnEvent {
            operation,
            target,
            stack: stack.to_vec(),
            uid: 5,
            gid: 0,
            namespace: 0,
            allocation: Vec::new(),
            allocation_uid: 0,
            allocation_gid: 0,
            allocation_namespace: 0,
        };
        put_event(&mut out, &table, &event);
    }
    out
}

/// The tables of the stored patterns and namespaces.
fn named_tables() -> impl Iterator<Item = Vec<u16>> {
    patterns::tables().into_iter().chain(namespaces::tables())
}

/// A large table, those of the stored patterns and namespaces, and any others.
fn judge_cases() -> Vec<u8> {
    let (count, events) = (80, 36);
    let mut named = named_tables();
    let mut out = Vec::new();
    put_u32(&mut out, count);
    for case in 0..u64::from(count) {
        let mut dice = Dice::of_case(SEED, case);
        let table = match case {
            0 => second::encode(&tables::large(&mut dice)).unwrap_or_default(),
            _ => named.next().unwrap_or_else(|| tables::table(&mut dice)),
        };
        let policy = decode(&table);
        // A table that is refused gives the same answer every time.
        let events = if policy.is_some() { events } else { 3 };
        put_table(&mut out, &table);
        put_u32(&mut out, events);
        for _ in 0..events {
            let event = events::event(&mut dice, policy.as_ref());
            put_event(&mut out, &table, &event);
        }
    }
    out
}

/// The tables of the stored patterns and namespaces, and any others.
fn overlap_cases() -> Vec<u8> {
    let count = 250;
    let mut named = named_tables();
    let mut out = Vec::new();
    put_u32(&mut out, count);
    for case in 0..u64::from(count) {
        let mut dice = Dice::of_case(SEED + 1, case);
        let table = named.next().unwrap_or_else(|| tables::table(&mut dice));
        let room = *dice.pick(&[0, 29, 30, 30, 30, 30, 30, 31]);
        let mut witness = vec![0; room];
        let report = overlap(&table, &mut witness);
        let written = match report {
            second::Overlap::Refused(_) => 0,
            _ => second::WITNESS_WORDS,
        };
        put_table(&mut out, &table);
        put_u16(&mut out, room as u16);
        put_u64(&mut out, report.answer().packed());
        put_words(&mut out, &witness[..written]);
    }
    out
}

fn page_cases() -> Vec<u8> {
    let short = (2..260).map(|case| short_text(&mut Dice::of_case(SEED + 2, case)));
    let mut all = vec![Vec::new(), b"\n".to_vec()];
    all.extend(ends::stored());
    all.extend(patterns::stored());
    all.extend(namespaces::stored());
    all.extend(short);
    let mut out = Vec::new();
    put_u32(&mut out, all.len() as u32);
    for text in all {
        put_bytes(&mut out, &text);
        put_u64(&mut out, Refusal::answer(first_fault(&text)).packed());
    }
    out
}

fn read_cases() -> Vec<u8> {
    let all = readings::all(SEED + 3);
    let mut out = Vec::new();
    put_u32(&mut out, all.len() as u32);
    for (text, room) in all {
        let mut table = vec![UNTOUCHED.into(); room];
        let answer = Refusal::answer(read(&text, &mut table).err());
        put_bytes(&mut out, &text);
        put_u16(&mut out, room as u16);
        put_u64(&mut out, answer.packed());
        // Nothing is written into a table that is too short.
        put_table(&mut out, table.get(..TABLE_WORDS).unwrap_or_default());
    }
    out
}

fn fill_cases() -> Vec<u8> {
    let all = fillings::all(SEED + 4);
    let mut out = Vec::new();
    put_u32(&mut out, all.len() as u32);
    for (text, room) in all {
        let mut output = vec![UNTOUCHED; room];
        let filling = fill(&text, &mut output);
        put_bytes(&mut out, &text);
        put_u32(&mut out, room as u32);
        put_u64(&mut out, filler::answer(filling).packed());
        put_bytes(&mut out, &output[..filling.unwrap_or(0)]);
    }
    out
}

fn name_cases() -> Vec<u8> {
    let all = names::all(SEED + 5);
    let mut out = Vec::new();
    put_u32(&mut out, all.len() as u32);
    for (text, question) in all {
        put_bytes(&mut out, &text);
        put_u16(&mut out, question.map);
        put_u64(&mut out, question.domain as u64);
        put_u64(&mut out, question.answer(&text).packed());
    }
    out
}

fn list_cases() -> Vec<u8> {
    let all = listings::all(SEED + 6);
    let mut out = Vec::new();
    put_u32(&mut out, all.len() as u32);
    for (text, room) in all {
        let mut words = vec![UNTOUCHED.into(); room];
        let listing = list(&text, &mut words);
        put_bytes(&mut out, &text);
        put_u32(&mut out, room as u32);
        put_u64(&mut out, second::names::answer(listing).packed());
        // Nothing is written where there is too little room.
        let written = listing.ok().and_then(|size| words.get(..size));
        put_list(&mut out, written.unwrap_or_default());
    }
    out
}

fn find_cases() -> Vec<u8> {
    let all = findings::all(SEED + 8);
    let mut out = Vec::new();
    let count: usize = all.iter().map(|finding| finding.searches.len()).sum();
    put_u32(&mut out, count as u32);
    for finding in &all {
        for search in &finding.searches {
            put_bytes(&mut out, &finding.text);
            put_list(&mut out, &finding.list);
            put_u32(&mut out, search.kind);
            put_bytes(&mut out, &search.name);
            put_u64(&mut out, finding.answer(search) as u64);
        }
    }
    out
}

/// A text that is short enough to be stored beside many.
fn short_text(dice: &mut Dice) -> Vec<u8> {
    let mut text = texts::small_text(dice);
    while text.len() > 500 {
        text = texts::small_text(dice);
    }
    text
}
