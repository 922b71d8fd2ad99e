//! `read`: a text to its table, or to the refusal of it.

use crate::case::{Check, Mix};
use crate::page::{outcome, told};
use crate::show;
use crate::wire::{Call, Function, Replies, Requests};
use cases::namespaces::has_namespace;
use cases::patterns::{any_context, any_domain, Whose};
use cases::{texts, Dice};
use second::{decode, Answer, Refusal, TABLE_WORDS};

const TEXT: u32 = 0;
const TABLE: u32 = 1;

/// A text, and a table that holds anything but zeros before the call.
pub fn ask(case: u64, dice: &mut Dice, requests: &mut Requests) -> Check {
    let (text, room) = match texts::first(case) {
        Some(text) => (text, TABLE_WORDS + 1),
        None => (texts::text(dice), room(dice)),
    };
    let before = not_zero(dice, room);
    requests.lend(TEXT, &text);
    requests.lend(TABLE, &before);
    requests.call(&Call::new(Function::Read, &[TEXT, TABLE], &[]));
    requests.show(TABLE);
    requests.show(TEXT);
    Box::new(move |replies, mix| {
        let mut expected = before;
        let plain = Refusal::answer(second::read(&text, &mut expected).err());
        check(&text, &expected, plain, replies).map_err(|fault| {
            let room = format!("table of {room} words");
            show::difference(&[show::text(&text), room], fault)
        })?;
        mix.count(outcome(plain, "accepted"));
        count_contexts(&expected, mix);
        Ok(())
    })
}

/// So many words, neither they nor their low bytes zero.
pub fn not_zero(dice: &mut Dice, count: usize) -> Vec<u16> {
    (0..count).map(|_| dice.next() as u16 | 1).collect()
}

/// How many words are lent: mostly enough.
fn room(dice: &mut Dice) -> usize {
    let enough = *dice.pick(&[0, 0, 0, 1, 8, 100]);
    match dice.below(40) {
        0 => *dice.pick(&[0, 1, TABLE_WORDS / 2]),
        1 => TABLE_WORDS - 1,
        _ => TABLE_WORDS + enough,
    }
}

/// Whose contexts name domains and bind namespaces, in a table that was read.
fn count_contexts(table: &[u16], mix: &mut Mix) {
    let Some(policy) = decode(table) else { return };
    if any_domain(&policy, Whose::Entry) {
        mix.count("accepted, a domain in an execution context");
    }
    if any_domain(&policy, Whose::Object) {
        mix.count("accepted, a domain in an object context");
    }
    if any_context(&policy, Whose::Entry, has_namespace) {
        mix.count("accepted, a namespace in an execution context");
    }
    if any_context(&policy, Whose::Object, has_namespace) {
        mix.count("accepted, a namespace in an object context");
    }
}

fn check(
    text: &[u8],
    expected: &[u16],
    plain: Answer,
    replies: &mut Replies<'_>,
) -> Result<(), String> {
    show::equal(told(replies.answer()?), told(plain))?;
    replies.shown()?.check("table", expected)?;
    replies.shown()?.check("text", text)
}
