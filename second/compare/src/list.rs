//! `list`: a text to the list of its names, or to the refusal of it.

use crate::case::{Check, Mix};
use crate::page::outcome;
use crate::show;
use crate::wire::{Call, Function, Replies, Requests};
use cases::{texts, Dice};
use second::names::{self, listed};
use second::LIST_WORDS;

const TEXT: u32 = 0;
const LIST: u32 = 1;

/// A text, and lists that hold anything but zeros before the calls.
pub fn ask(case: u64, dice: &mut Dice, requests: &mut Requests) -> Check {
    let text = texts::first(case).unwrap_or_else(|| texts::text(dice));
    let size = listed(&text).ok().map(|list| list.len());
    let rooms = rooms(dice, size).into_iter();
    let before: Vec<Vec<u32>> = rooms.map(|room| not_zero(dice, room)).collect();
    requests.lend(TEXT, &text);
    for list in &before {
        requests.lend(LIST, list);
        requests.call(&Call::new(Function::List, &[TEXT, LIST], &[]));
        requests.show(LIST);
        requests.show(TEXT);
    }
    Box::new(move |replies, mix| {
        for list in before {
            let room = format!("list of {} words", list.len());
            check(&text, list, replies, mix)
                .map_err(|fault| show::difference(&[show::text(&text), room], fault))?;
        }
        Ok(())
    })
}

/// How many words are lent, one call after the other: none, one too few, as many
/// as the list has, and some more. Where there is no list: none, some, and
/// enough for any.
fn rooms(dice: &mut Dice, size: Option<usize>) -> Vec<usize> {
    let more = dice.from_to(1, 100);
    match size {
        Some(size) => vec![0, size.saturating_sub(1), size, size + more],
        None => vec![0, more, LIST_WORDS],
    }
}

/// So many words, none of them zero.
fn not_zero(dice: &mut Dice, count: usize) -> Vec<u32> {
    (0..count).map(|_| dice.next() as u32 | 1).collect()
}

fn check(
    text: &[u8],
    mut list: Vec<u32>,
    replies: &mut Replies<'_>,
    mix: &mut Mix,
) -> Result<(), String> {
    let room = list.len();
    let listing = names::list(text, &mut list);
    let plain = names::answer(listing);
    show::equal(replies.answer()?, plain)?;
    replies.shown()?.check("list", &list)?;
    replies.shown()?.check("text", text)?;
    let listed = match listing {
        Ok(size) if size > room => "too little room",
        _ => "listed",
    };
    mix.count(outcome(plain, listed));
    Ok(())
}
