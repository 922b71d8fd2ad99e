//! The quick judge gives the verdict of the plain one under every well-formed table.

use super::{each_case, note, outcome, show, Mix};
use cases::bursts::BURSTS;
use cases::events::{self, OwnEvent};
use cases::full::{self, FRAMES};
use cases::namespaces::without;
use cases::patterns::{has_domain, Whose};
use cases::tables;
use second::judge::judge_policy;
use second::*;

/// The verdict that both judges give.
fn same_verdict(words: &[u16], policy: &Policy, event: &OwnEvent) -> Verdict {
    let (operation, target) = (event.operation, event.target);
    let verdict = judge_policy(policy, operation, target, &event.lent());
    let quick = quick_judge::judge_known(words, operation, target, &event.lent());
    assert_eq!(quick, verdict, "{policy:?} {event:?}");
    verdict
}

fn note_verdict(mix: &mut Mix, policy: &Policy, event: &OwnEvent, verdict: Verdict) {
    let is_static = event.allocation.is_empty();
    note(mix, outcome(verdict, event.operation, is_static));
    if let Verdict::Allowed(entry) = verdict {
        let entry = &policy.entries[usize::from(entry)];
        if has_domain(&entry.context) {
            note(mix, "allowed by an entry that names a domain");
        }
        match event.stack.len() {
            1 => note(mix, "allowed, one frame"),
            64 => note(mix, "allowed, 64 frames"),
            _ => {}
        }
    }
}

const VERDICTS: [&str; 17] = [
    "allowed 1 static",
    "allowed 1 allocated",
    "allowed 2 static",
    "allowed 2 allocated",
    "allowed 3",
    "allowed 4",
    "allowed by an entry that names a domain",
    "allowed, one frame",
    "allowed, 64 frames",
    "inside",
    "violation 1",
    "violation 2",
    "violation 3",
    "violation 4",
    "refused 21",
    "refused 22",
    "refused 23",
];

/// Tables and events of every sort, words behind the table among them.
#[test]
fn the_quick_judge_gives_the_same_verdicts() {
    let mut mix = Mix::new();
    each_case(1, |dice| {
        let words = tables::sound_table(dice);
        let policy = decode(&words).unwrap();
        let open = without(&policy, Whose::Object);
        for _ in 0..20 {
            let event = events::event(dice, Some(&policy));
            let verdict = same_verdict(&words, &policy, &event);
            note_verdict(&mut mix, &policy, &event, verdict);
            let (operation, target) = (event.operation, event.target);
            if judge_policy(&open, operation, target, &event.lent()) != verdict {
                note(&mut mix, "decided by a namespace");
            }
        }
    });
    let needed = [&VERDICTS[..], &["decided by a namespace"]].concat();
    show("quick judge", &mix, &needed);
}

/// With a test of the table it answers as `judge` does, whatever the words are.
#[test]
fn the_quick_judge_tests_tables_alike() {
    let mut mix = Mix::new();
    each_case(2, |dice| {
        let words = tables::table(dice);
        let policy = decode(&words);
        let event = events::event(dice, policy.as_ref());
        let (operation, target) = (event.operation, event.target);
        let verdict = judge(&words, operation, target, &event.lent());
        let quick = quick_judge::judge(&words, operation, target, &event.lent());
        assert_eq!(quick, verdict);
        note(&mut mix, matches!(verdict, Verdict::Refused(20)));
    });
    show("quick judge, any table", &mix, &["false", "true"]);
}

/// Tables of 128 entries, with domains in their patterns or none, and short and
/// long stacks.
#[test]
fn the_quick_judge_gives_the_same_verdicts_under_full_tables() {
    let mut mix = Mix::new();
    each_case(100, |dice| {
        let domains = *dice.pick(&[0, 20, 50, 100]);
        let policy = full::policy(dice, domains);
        let words = encode(&policy).unwrap();
        for frames in FRAMES {
            for _ in 0..200 {
                let event = frames.event(dice);
                let verdict = same_verdict(&words, &policy, &event);
                note_verdict(&mut mix, &policy, &event, verdict);
            }
        }
    });
    let needed = [
        "allowed 1 allocated",
        "allowed 2 allocated",
        "allowed 3",
        "allowed 4",
        "allowed by an entry that names a domain",
        "allowed, one frame",
        "allowed, 64 frames",
        "inside",
        "violation 4",
    ];
    show("quick judge, full tables", &mix, &needed);
}

/// What judges are timed on: every sort of burst has events, and they are what
/// their sort says.
#[test]
fn the_quick_judge_gives_the_same_verdicts_in_bursts() {
    let mut mix = Mix::new();
    each_case(500, |dice| {
        for burst in BURSTS {
            let policy = burst.policy(dice);
            let words = encode(&policy).unwrap();
            for frames in FRAMES {
                for _ in 0..50 {
                    let Some(event) = burst.event(dice, &words, frames) else {
                        continue;
                    };
                    let verdict = same_verdict(&words, &policy, &event);
                    note(&mut mix, burst_outcome(burst.name(), verdict));
                }
            }
        }
    });
    let needed = [
        "other subjects, allowed",
        "other subjects, violation",
        "sixteen alls, allowed",
        "sixteen alls, violation",
        "[all, f, .., f], allowed",
        "[all, f, .., f], violation",
        "allowed early, allowed",
        "allowed late, allowed",
        "never allowed, violation",
        "allocated reads, allowed",
        "allocated reads, violation",
    ];
    show("quick judge, bursts", &mix, &needed);
    let wrong = [
        "allowed early, violation",
        "allowed late, violation",
        "never allowed, allowed",
    ];
    for outcome in wrong {
        assert!(!mix.contains_key(outcome), "{outcome}");
    }
}

fn burst_outcome(name: &str, verdict: Verdict) -> String {
    let outcome = match verdict {
        Verdict::Violation(_) => "violation",
        Verdict::Allowed(_) | Verdict::Inside => "allowed",
        Verdict::Refused(_) => "refused",
    };
    format!("{name}, {outcome}")
}
