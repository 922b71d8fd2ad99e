//! The stored files are what the generator makes now, and say what their
//! README says they do.

use cases::events::OwnEvent;
use cases::findings::{Finding, Search};
use cases::names::Question;
use cases::namespaces::without;
use cases::patterns::{has_domain, Whose};
use cases::stored::{files, runs, UNTOUCHED};
use cases::{ends, fillings, namespaces, patterns, readings};
use second::answer::REFUSED;
use second::judge::judge_policy;
use second::{
    decode, fill, filled, filler, first_fault, judge, list, names, overlap, policy_of, read,
    Answer, Overlap, Policy, Refusal, Verdict, EXAMPLE, TABLE_WORDS,
};
use std::cmp::Ordering::{Equal, Greater, Less};
use std::collections::HashSet;
use std::path::Path;

#[test]
fn stored_files_are_made_again_byte_for_byte() {
    for (name, bytes) in files() {
        let stored = std::fs::read(Path::new("../../crates/replay/data").join(name)).unwrap();
        assert!(stored == bytes, "{name} is not what `store` makes");
    }
}

#[test]
fn stored_files_are_small() {
    let limits = [
        1_000, 159_000, 150_000, 100_000, 150_000, 299_000, 50_000, 150_000, 100_000,
    ];
    for ((name, bytes), limit) in files().iter().zip(limits) {
        assert!(bytes.len() < limit, "{name}: {}", bytes.len());
    }
}

/// Takes the stored numbers in order.
struct Replay {
    bytes: Vec<u8>,
    at: usize,
}

impl Replay {
    fn of(name: &str) -> Replay {
        let bytes = std::fs::read(Path::new("../../crates/replay/data").join(name)).unwrap();
        Replay { bytes, at: 0 }
    }

    fn number(&mut self, size: usize) -> u64 {
        let bytes = &self.bytes[self.at..self.at + size];
        self.at += size;
        bytes
            .iter()
            .rev()
            .fold(0, |n, &byte| n << 8 | u64::from(byte))
    }

    fn bytes(&mut self) -> Vec<u8> {
        let start = self.at + 4;
        self.at = start + self.number(4) as usize;
        self.bytes[start..self.at].to_vec()
    }

    fn words(&mut self) -> Vec<u16> {
        let count = self.number(2);
        (0..count).map(|_| self.number(2) as u16).collect()
    }

    fn list(&mut self) -> Vec<u32> {
        let count = self.number(4);
        (0..count).map(|_| self.number(4) as u32).collect()
    }

    /// An event and its answer.
    fn event(&mut self) -> (OwnEvent, Answer) {
        let (operation, target) = (self.number(2) as u16, self.number(2) as u16);
        let ids: Vec<u32> = (0..6).map(|_| self.number(4) as u32).collect();
        let event = OwnEvent {
            operation,
            target,
            stack: self.words(),
            uid: ids[0],
            gid: ids[1],
            namespace: ids[2],
            allocation: self.words(),
            allocation_uid: ids[3],
            allocation_gid: ids[4],
            allocation_namespace: ids[5],
        };
        (event, Answer::of(self.number(4)))
    }

    fn table(&mut self) -> Vec<u16> {
        let mut table = vec![0; self.number(4) as usize];
        for _ in 0..self.number(2) {
            let first = self.number(2) as usize;
            let words = self.words();
            table[first..first + words.len()].copy_from_slice(&words);
        }
        table
    }
}

#[test]
fn trials_are_those_of_document_01() {
    let mut replay = Replay::of("trials.cases");
    assert_eq!(replay.number(4), 1);
    let mut table = vec![0; TABLE_WORDS];
    assert_eq!(read(EXAMPLE.as_bytes(), &mut table), Ok(()));
    assert_eq!(replay.table(), table);
    let told = (0..replay.number(4)).map(|_| replay.event().1);
    let verdicts = [
        Verdict::Allowed(0),
        Verdict::Inside,
        Verdict::Violation(4),
        Verdict::Violation(3),
        Verdict::Violation(1),
        Verdict::Violation(2),
        Verdict::Allowed(0),
    ];
    assert!(told.eq(verdicts.map(Verdict::answer)));
}

#[test]
fn judge_cases_replay() {
    let mut replay = Replay::of("judge.cases");
    let (mut seen, mut by_domain) = (HashSet::new(), HashSet::new());
    // Whether a namespace decides, of a static object or of another.
    let mut by_namespace = HashSet::new();
    for _ in 0..replay.number(4) {
        let table = replay.table();
        let policy = decode(&table);
        let open = policy.as_ref().map(|p| without(p, Whose::Object));
        for _ in 0..replay.number(4) {
            let (event, answer) = replay.event();
            let verdict = judge(&table, event.operation, event.target, &event.lent());
            assert_eq!(verdict.answer(), answer);
            if let (Some(policy), Verdict::Allowed(entry)) = (&policy, verdict) {
                let entry = &policy.entries[usize::from(entry)];
                let objects = entry.descriptors().map(|d| &d.context);
                by_domain.insert(("own", has_domain(&entry.context)));
                by_domain.insert(("object", objects.into_iter().any(has_domain)));
            }
            if let Some(open) = &open {
                let opened = judge_policy(open, event.operation, event.target, &event.lent());
                by_namespace.insert((opened != verdict, event.allocation.is_empty()));
            }
            // Whichever entry it is that allows.
            seen.insert(match verdict {
                Verdict::Allowed(_) => Verdict::Allowed(0),
                other => other,
            });
        }
    }
    assert_eq!(replay.at, replay.bytes.len());
    let violations = (1..=4).map(Verdict::Violation);
    let refusals = (20..=23).map(Verdict::Refused);
    let allowed = [Verdict::Inside, Verdict::Allowed(0)];
    let needed = violations.chain(refusals).chain(allowed);
    assert_eq!(seen, needed.collect());
    assert_eq!(by_domain.len(), 4);
    assert_eq!(by_namespace.len(), 4);
}

#[test]
fn overlap_cases_replay() {
    let mut replay = Replay::of("overlap.cases");
    let (mut seen, mut by_domain) = (HashSet::new(), HashSet::new());
    for _ in 0..replay.number(4) {
        let table = replay.table();
        let mut witness = vec![0; replay.number(2) as usize];
        let report = overlap(&table, &mut witness);
        by_domain.extend(decode(&table).map(|policy| domains_in(&policy, report)));
        assert_eq!(report.answer(), Answer::of(replay.number(8)));
        let words = replay.words();
        assert_eq!(words, witness[..words.len()]);
        seen.insert(report);
    }
    assert_eq!(replay.at, replay.bytes.len());
    for needed in [Overlap::Refused(20), Overlap::Refused(40), Overlap::Clear] {
        assert!(seen.contains(&needed));
    }
    let is_long = |report: &Overlap| matches!(report, Overlap::Clash { length: 21.., .. });
    assert!(seen.iter().any(is_long));
    // Clear and clashes, of tables or pairs with no domain, one and two.
    for needed in [
        (false, 0),
        (false, 1),
        (false, 2),
        (true, 0),
        (true, 1),
        (true, 2),
    ] {
        assert!(by_domain.contains(&needed), "{needed:?}");
    }
}

/// Whether a report is a clash, and how many of its two entries have a domain;
/// of all entries, up to two, where there is no pair.
fn domains_in(policy: &Policy, report: Overlap) -> (bool, usize) {
    let own = |entry: usize| usize::from(has_domain(&policy.entries[entry].context));
    match report {
        Overlap::Clash { lower, higher, .. } => (true, own(lower.into()) + own(higher.into())),
        _ => (
            false,
            (0..policy.entries.len()).map(own).sum::<usize>().min(2),
        ),
    }
}

#[test]
fn page_cases_replay() {
    let mut replay = Replay::of("page.cases");
    let mut seen = HashSet::new();
    for _ in 0..replay.number(4) {
        let text = replay.bytes();
        let answer = Refusal::answer(first_fault(&text));
        assert_eq!(answer, Answer::of(replay.number(8)));
        seen.insert((answer.class, answer.value));
    }
    assert_eq!(replay.at, replay.bytes.len());
    let refusals = [3, 4, 5, 9].map(|number| (REFUSED, number));
    let needed = refusals.into_iter().chain([(2, 0)]);
    assert_eq!(seen, needed.collect());
}

#[test]
fn read_cases_replay() {
    let mut replay = Replay::of("read.cases");
    let mut seen = HashSet::new();
    for _ in 0..replay.number(4) {
        let text = replay.bytes();
        let mut table = vec![UNTOUCHED.into(); replay.number(2) as usize];
        let answer = Refusal::answer(read(&text, &mut table).err());
        assert_eq!(answer, Answer::of(replay.number(8)));
        let mut stored = replay.table();
        stored.resize(table.len(), UNTOUCHED.into());
        assert_eq!(table, stored);
        seen.insert((answer.class, answer.value));
    }
    assert_eq!(replay.at, replay.bytes.len());
    // A text that is too long does not fit in here.
    let refusals = [1, 3, 4, 5, 6, 7, 8, 9, 10, 11].map(|number| (REFUSED, number));
    let needed = refusals.into_iter().chain([(2, 0)]);
    assert_eq!(seen, needed.collect());
}

#[test]
fn fill_cases_replay() {
    let mut replay = Replay::of("fill.cases");
    let (mut seen, mut spare) = (HashSet::new(), HashSet::new());
    for _ in 0..replay.number(4) {
        let text = replay.bytes();
        let mut output = vec![UNTOUCHED; replay.number(4) as usize];
        let answer = filler::answer(fill(&text, &mut output));
        assert_eq!(answer, Answer::of(replay.number(8)));
        let mut stored = replay.bytes();
        stored.resize(output.len(), UNTOUCHED);
        assert!(output == stored);
        seen.insert((answer.class, answer.value));
        if let Ok(filled) = filled(&text) {
            spare.insert(output.len() as i64 - filled.len() as i64);
        }
    }
    assert_eq!(replay.at, replay.bytes.len());
    let refusals = (2..=11).chain([30, 31]).map(|number| (REFUSED, number));
    assert_eq!(seen, refusals.chain([(2, 0)]).collect());
    // None where 31 is due, one byte too few, just enough, and more.
    for needed in [-65_537, -1, 0, 5] {
        assert!(spare.contains(&needed), "{needed}");
    }
}

#[test]
fn name_cases_replay() {
    let mut replay = Replay::of("name.cases");
    let (mut seen, mut refused) = (HashSet::new(), HashSet::new());
    for _ in 0..replay.number(4) {
        let text = replay.bytes();
        let (map, domain) = (replay.number(2) as u16, replay.number(8) as usize);
        let answer = Question { map, domain }.answer(&text);
        assert_eq!(answer, Answer::of(replay.number(8)));
        match policy_of(&text) {
            Ok(_) => seen.insert((map, domain, answer.class)),
            Err(refusal) => refused.insert((map, refusal.number)),
        };
    }
    assert_eq!(replay.at, replay.bytes.len());
    let maps = [0, 3, 65_535].map(|map| (map, 0, 1));
    let edges = [
        (1, 0, 2),
        (1, 1, 1),
        (2, 1, 2),
        (2, 2, 1),
        (1, 127, 2),
        (1, 128, 1),
        (2, 127, 2),
        (2, 128, 1),
        (1, 65_536, 1),
        (2, 4_294_967_297, 1),
    ];
    for needed in maps.into_iter().chain(edges) {
        assert!(seen.contains(&needed), "{needed:?}");
    }
    // A text that is too long does not fit in here.
    let both = |number| [(1, number), (2, number)];
    assert_eq!(refused, (3..=11).flat_map(both).collect());
}

#[test]
fn list_cases_replay() {
    let mut replay = Replay::of("list.cases");
    let (mut seen, mut spare) = (HashSet::new(), HashSet::new());
    let mut longest = 0;
    for _ in 0..replay.number(4) {
        let text = replay.bytes();
        let mut words = vec![UNTOUCHED.into(); replay.number(4) as usize];
        let listing = list(&text, &mut words);
        let answer = names::answer(listing);
        assert_eq!(answer, Answer::of(replay.number(8)));
        let mut stored = replay.list();
        stored.resize(words.len(), UNTOUCHED.into());
        assert_eq!(words, stored);
        seen.insert((answer.class, answer.value));
        longest = longest.max(words.len());
        if let Ok(size) = listing {
            spare.insert(words.len() as i64 - size as i64);
        }
    }
    assert_eq!(replay.at, replay.bytes.len());
    // A text that is too long does not fit in here.
    let refusals = (3..=11).map(|number| (REFUSED, number));
    assert_eq!(seen, refusals.chain([(2, 0)]).collect());
    // No room for the example, one word too few, just enough, and more.
    for needed in [-32, -1, 0, 5] {
        assert!(spare.contains(&needed), "{needed}");
    }
    // `crates/replay` has room for so many words.
    assert!(longest < 9_984);
}

#[test]
fn find_cases_replay() {
    let mut replay = Replay::of("find.cases");
    let (mut seen, mut ends) = (HashSet::new(), HashSet::new());
    for _ in 0..replay.number(4) {
        let (text, list) = (replay.bytes(), replay.list());
        let (kind, name) = (replay.number(4) as u32, replay.bytes());
        let searches = Vec::new();
        let finding = Finding {
            text,
            list,
            searches,
        };
        let answer = finding.answer(&Search {
            kind,
            name: name.clone(),
        });
        assert_eq!(answer as u64, replay.number(8));
        let fours = || finding.list.chunks_exact(4);
        let of_kind = fours().filter(|four| four[0] == kind).count();
        seen.insert((kind, answer < of_kind, name.is_empty()));
        let size = finding.text.len() as u64;
        ends.extend(fours().map(|four| {
            let (start, bytes) = (u64::from(four[2]), u64::from(four[3]));
            (
                start.cmp(&size),
                start + bytes > size,
                (start + bytes) >> 32 > 0,
            )
        }));
    }
    assert_eq!(replay.at, replay.bytes.len());
    let kinds = [0, 6, 257, 65_537, u32::MAX].map(|kind| (kind, false, false));
    let there = [1, 2, 3, 4, 5].map(|kind| (kind, true, false));
    let none = [1, 2, 3, 4, 5].map(|kind| (kind, false, false));
    let empty = [(1, true, true), (1, false, true)];
    let needed = kinds.into_iter().chain(there).chain(none).chain(empty);
    for needed in needed {
        assert!(seen.contains(&needed), "{needed:?}");
    }
    // A stretch in the text, one that is cut, and those that start at the text's
    // end and behind it; some of which end past 32 bits.
    let needed = [
        (Less, false, false),
        (Less, true, false),
        (Less, true, true),
        (Equal, false, false),
        (Equal, true, false),
        (Greater, true, false),
        (Greater, true, true),
    ];
    for needed in needed {
        assert!(ends.contains(&needed), "{needed:?}");
    }
}

/// Each field that may be put in several ways is put in each.
#[test]
fn forms_are_all_there() {
    let text = |form: Vec<u8>| String::from_utf8(form).unwrap();
    let forms: Vec<String> = fillings::forms().into_iter().map(text).collect();
    assert!(forms.iter().all(|form| policy_of(form.as_bytes()).is_ok()));
    let fields = [
        "  can_call:",
        "  can_return:",
        "  can_read:",
        "  can_write:",
    ];
    let contexts = ["    execution_context:", "    object_context:"];
    let put = |keys: &[&str], values: &[&str]| {
        for key in keys {
            for value in values {
                let line = format!("\n{key}{value}\n");
                assert!(forms.iter().any(|form| form.contains(&line)), "{line}");
            }
        }
    };
    put(&fields, &["", " all", " []"]);
    put(&["  - objects:"], &["", " all", " []"]);
    put(&contexts, &["", " all"]);
    for key in fields.into_iter().chain(contexts) {
        let is_omitted = |form: &String| !form.contains(key);
        assert!(forms.iter().any(is_omitted), "{key}");
    }
}

#[test]
fn counts_are_met_and_passed() {
    let number = |text: String| match policy_of(text.as_bytes()) {
        Ok(_) => 0,
        Err(refusal) => refusal.number,
    };
    let numbers = readings::counts().map(number);
    assert_eq!(numbers, [0, 6, 6, 0, 6, 0, 6, 0, 6, 6]);
}

/// Two texts that are taken, and six with a CR that ends no line.
#[test]
fn line_ends_are_taken_and_refused() {
    let number = |text: Vec<u8>| policy_of(&text).err().map_or(0, |refusal| refusal.number);
    let numbers: Vec<u16> = ends::stored().into_iter().map(number).collect();
    assert_eq!(numbers, [0, 0, 3, 3, 3, 3, 3, 3]);
}

/// Five texts with domains in patterns that are taken, and six that are not.
#[test]
fn patterns_are_taken_and_refused() {
    let number = |text: Vec<u8>| policy_of(&text).err().map_or(0, |refusal| refusal.number);
    let numbers: Vec<u16> = patterns::stored().into_iter().map(number).collect();
    assert_eq!(numbers, [0, 0, 0, 0, 0, 8, 8, 8, 5, 5, 11]);
    assert_eq!(patterns::tables().len(), 5);
}

/// Five texts with namespaces that are taken, and seven that are not.
#[test]
fn namespaces_are_taken_and_refused() {
    let number = |text: Vec<u8>| policy_of(&text).err().map_or(0, |refusal| refusal.number);
    let numbers: Vec<u16> = namespaces::stored().into_iter().map(number).collect();
    assert_eq!(numbers, [0, 0, 0, 0, 0, 5, 9, 4, 4, 10, 10, 11]);
    assert_eq!(namespaces::tables().len(), 5);
}

#[test]
fn runs_keep_every_word() {
    let table = [0, 5, 0, 0, 6, 0, 0, 0, 7, 0];
    assert_eq!(runs(&table), [(1, vec![5, 0, 0, 6]), (8, vec![7])]);
    assert_eq!(runs(&[]), []);
    assert_eq!(runs(&[0; 9]), []);
}
