//! `judge` and `judge_known`: a table and an event to a verdict.

use crate::case::Check;
use crate::show;
use crate::wire::{Call, Function, Replies, Requests};
use cases::events::{self, OwnEvent};
use cases::namespaces::without;
use cases::patterns::{has_domain, Whose};
use cases::{tables, Dice};
use second::judge::{judge_policy, Verdict};
use second::refusal::NOT_WELL_FORMED;
use second::{decode, Policy};

const TABLE: u32 = 0;
const STACK: u32 = 1;
const ALLOCATION: u32 = 2;

/// How many events a case of `judge_known` has: its table is tested once.
const KNOWN_EVENTS: usize = 100;

/// Any table and a few events on it.
pub fn ask(_: u64, dice: &mut Dice, requests: &mut Requests) -> Check {
    let words = tables::table(dice);
    ask_all(dice, Function::Judge, words, 4, requests)
}

/// A well-formed table and many events on it.
pub fn ask_known(_: u64, dice: &mut Dice, requests: &mut Requests) -> Check {
    let words = tables::sound_table(dice);
    ask_all(dice, Function::JudgeKnown, words, KNOWN_EVENTS, requests)
}

fn ask_all(
    dice: &mut Dice,
    function: Function,
    words: Vec<u16>,
    count: usize,
    requests: &mut Requests,
) -> Check {
    let policy = decode(&words);
    let one = |_| events::event(dice, policy.as_ref());
    let events: Vec<OwnEvent> = (0..count).map(one).collect();
    requests.lend(TABLE, &words);
    for event in &events {
        requests.lend(STACK, &event.stack);
        requests.lend(ALLOCATION, &event.allocation);
        requests.call(&call(function, event, [TABLE, STACK, ALLOCATION]));
        requests.show(STACK);
        requests.show(ALLOCATION);
    }
    requests.show(TABLE);
    // As it would be if no object asked for a namespace.
    let open = policy.as_ref().map(|policy| without(policy, Whose::Object));
    Box::new(move |replies, mix| {
        for event in &events {
            let plain = plain(policy.as_ref(), event);
            check(plain, event, replies).map_err(|fault| {
                show::difference(&[show::table(&words), show::event(event)], fault)
            })?;
            mix.count(name(policy.as_ref(), plain));
            if open.is_some() && self::plain(open.as_ref(), event) != plain {
                mix.count("decided by a namespace");
            }
        }
        let table = replies
            .shown()
            .and_then(|table| table.check("table", &words));
        table.map_err(|fault| {
            let after = format!("after {count} events");
            show::difference(&[show::table(&words), after], fault)
        })
    })
}

/// The call that judges an event, its stretches lent in these slots.
pub fn call(function: Function, event: &OwnEvent, slots: [u32; 3]) -> Call {
    let numbers = [
        event.operation.into(),
        event.target.into(),
        event.uid,
        event.gid,
        event.namespace,
        event.allocation_uid,
        event.allocation_gid,
        event.allocation_namespace,
    ];
    Call::new(function, &slots, &numbers)
}

/// What `second::judge` answers, the table decoded once for all events.
fn plain(policy: Option<&Policy>, event: &OwnEvent) -> Verdict {
    match policy {
        None => Verdict::Refused(NOT_WELL_FORMED),
        Some(policy) => judge_policy(policy, event.operation, event.target, &event.lent()),
    }
}

fn check(plain: Verdict, event: &OwnEvent, replies: &mut Replies<'_>) -> Result<(), String> {
    show::equal(replies.answer()?, plain.answer())?;
    replies.shown()?.check("stack", &event.stack)?;
    replies
        .shown()?
        .check("allocation stack", &event.allocation)
}

fn name(policy: Option<&Policy>, verdict: Verdict) -> String {
    let names_domain = |entry: u16| {
        policy.is_some_and(|policy| has_domain(&policy.entries[usize::from(entry)].context))
    };
    match verdict {
        Verdict::Inside => "inside one domain".to_string(),
        Verdict::Allowed(entry) if names_domain(entry) => {
            "allowed by an entry that names a domain".to_string()
        }
        Verdict::Allowed(_) => "allowed by an entry".to_string(),
        Verdict::Violation(number) => format!("violation {number}"),
        Verdict::Refused(number) => format!("refused {number}"),
    }
}
