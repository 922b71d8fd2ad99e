//! `fill`: a text to its filled text, or to the refusal of it. What is written
//! is then read as the same table, and filled again stays the same: the round
//! trip, by the proved functions alone.

use crate::case::{Check, Mix};
use crate::lent::Lent;
use crate::page::outcome;
use crate::read::not_zero;
use crate::show;
use crate::wire::{Call, Function, Replies, Requests};
use cases::{texts, Dice};
use second::text::TEXT_LIMIT;
use second::{filled, filler, Refusal, TABLE_WORDS};

const TEXT: u32 = 0;
const OUTPUT: u32 = 1;
const OUTPUT_AGAIN: u32 = 2;
const TABLE: u32 = 3;
const TABLE_AGAIN: u32 = 4;

/// A text, and outputs that hold anything but zeros before the calls.
pub fn ask(case: u64, dice: &mut Dice, requests: &mut Requests) -> Check {
    let text = texts::first(case).unwrap_or_else(|| texts::text(dice));
    let filled = filled(&text).ok();
    let rooms = rooms(dice, filled.as_ref().map(Vec::len)).into_iter();
    let before: Vec<Vec<u8>> = rooms.map(|room| output(dice, room)).collect();
    requests.lend(TEXT, &text);
    for output in &before {
        requests.lend(OUTPUT, output);
        requests.call(&Call::new(Function::Fill, &[TEXT, OUTPUT], &[]));
        requests.show(OUTPUT);
        requests.show(TEXT);
    }
    let written = filled.filter(|filled| filled.len() <= TEXT_LIMIT);
    if let Some(filled) = &written {
        ask_round_trip(dice, filled.len(), requests);
    }
    Box::new(move |replies, mix| {
        for output in before {
            let room = format!("output of {} bytes", output.len());
            check(&text, output, replies, mix)
                .map_err(|fault| show::difference(&[show::text(&text), room], fault))?;
        }
        if let Some(filled) = written {
            check_round_trip(&filled, replies)
                .map_err(|fault| show::difference(&[show::text(&text)], fault))?;
            mix.count("round trips");
        }
        Ok(())
    })
}

/// How many bytes are lent, one call after the other: none, one too few, some
/// too many, and at last as many as the filled text has.
fn rooms(dice: &mut Dice, size: Option<usize>) -> Vec<usize> {
    let more = dice.from_to(1, 100);
    match size {
        Some(size) => vec![0, size - 1, size + more, size],
        None => vec![0, more],
    }
}

/// An output of so many bytes, none of them zero.
fn output(dice: &mut Dice, room: usize) -> Vec<u8> {
    let words = not_zero(dice, room);
    words.into_iter().map(|word| word as u8).collect()
}

fn check(
    text: &[u8],
    mut output: Vec<u8>,
    replies: &mut Replies<'_>,
    mix: &mut Mix,
) -> Result<(), String> {
    let plain = filler::answer(second::fill(text, &mut output));
    show::equal(replies.answer()?, plain)?;
    replies.shown()?.check("output", &output)?;
    replies.shown()?.check("text", text)?;
    mix.count(outcome(plain, "written"));
    Ok(())
}

/// The output, of this size, holds what was written. Fills that again, and
/// reads it and the text, each into a table of its own.
fn ask_round_trip(dice: &mut Dice, size: usize, requests: &mut Requests) {
    requests.lend(OUTPUT_AGAIN, &output(dice, size));
    requests.call(&Call::new(Function::Fill, &[OUTPUT, OUTPUT_AGAIN], &[]));
    requests.show(OUTPUT);
    requests.show(OUTPUT_AGAIN);
    for (text, table) in [(TEXT, TABLE), (OUTPUT, TABLE_AGAIN)] {
        requests.lend(table, &not_zero(dice, TABLE_WORDS));
        requests.call(&Call::new(Function::Read, &[text, table], &[]));
        requests.show(table);
    }
}

fn check_round_trip(filled: &[u8], replies: &mut Replies<'_>) -> Result<(), String> {
    show::equal(replies.answer()?, filler::answer(Ok(filled.len())))?;
    replies.shown()?.check("output", filled)?;
    replies.shown()?.check("filled again", filled)?;
    show::equal(replies.answer()?, Refusal::answer(None))?;
    let table: Lent<u16> = replies.shown()?;
    show::equal(replies.answer()?, Refusal::answer(None))?;
    replies
        .shown()?
        .check("table of the filled text", table.get())
}
