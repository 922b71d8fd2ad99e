//! `find`: a text, a list, a kind and a name to the name's number.

use crate::case::{Check, Mix};
use crate::show;
use crate::wire::{Call, Function, Replies, Requests};
use cases::findings::{finding, in_text, Finding, Search};
use cases::{texts, Dice};
use second::names::FOUR;

const TEXT: u32 = 0;
const LIST: u32 = 1;
const NAME: u32 = 2;

/// A text, a list, and many names that are searched for.
pub fn ask(case: u64, dice: &mut Dice, requests: &mut Requests) -> Check {
    let finding = match texts::first(case) {
        Some(text) => in_text(dice, text),
        None => finding(dice),
    };
    requests.lend(TEXT, &finding.text);
    requests.lend(LIST, &finding.list);
    for search in &finding.searches {
        requests.lend(NAME, &search.name);
        requests.call(&call(search.kind, [TEXT, LIST, NAME]));
        requests.show(NAME);
    }
    requests.show(TEXT);
    requests.show(LIST);
    Box::new(move |replies, mix| {
        check(&finding, replies, mix).map_err(|fault| {
            let inputs = [show::text(&finding.text), show::list(&finding.list)];
            show::difference(&inputs, fault)
        })
    })
}

/// The call that searches for the name in the last of these slots.
pub fn call(kind: u32, slots: [u32; 3]) -> Call {
    Call::new(Function::Find, &slots, &[kind])
}

/// Text and list, lent once for all searches, are looked at after the last.
fn check(finding: &Finding, replies: &mut Replies<'_>, mix: &mut Mix) -> Result<(), String> {
    for search in &finding.searches {
        let plain = finding.answer(search);
        check_one(search, plain, replies).map_err(|fault| {
            let told = format!("kind {} {}", search.kind, show::text(&search.name));
            show::difference(&[told], fault)
        })?;
        mix.count(outcome(finding, search, plain));
    }
    replies.shown()?.check("text", &finding.text)?;
    replies.shown()?.check("list", &finding.list)
}

fn check_one(search: &Search, plain: usize, replies: &mut Replies<'_>) -> Result<(), String> {
    show::equal(replies.number()?, plain as u64)?;
    replies.shown()?.check("name", &search.name)
}

/// What comes of a search.
fn outcome(finding: &Finding, search: &Search, plain: usize) -> &'static str {
    let fours = finding.list.chunks_exact(FOUR);
    let of_kind = fours.filter(|four| four[0] == search.kind).count();
    match (plain < of_kind, search.name.is_empty()) {
        (true, true) => "an empty name found",
        (true, false) => "found",
        (false, _) if of_kind == 0 => "none of the kind",
        (false, _) => "not there",
    }
}
