//! `page`: a text to its first fault of 2, 3, and 4, 9, 5.

use crate::case::Check;
use crate::show;
use crate::wire::{Call, Function, Replies, Requests};
use cases::{texts, Dice};
use second::answer::REFUSED;
use second::{first_fault, Answer, Refusal};

pub fn ask(case: u64, dice: &mut Dice, requests: &mut Requests) -> Check {
    let bytes = texts::first(case).unwrap_or_else(|| texts::text(dice));
    requests.lend(0, &bytes);
    requests.call(&Call::new(Function::Page, &[0], &[]));
    requests.show(0);
    Box::new(move |replies, mix| {
        let plain = Refusal::answer(first_fault(&bytes));
        check(&bytes, plain, replies)
            .map_err(|fault| show::difference(&[show::text(&bytes)], fault))?;
        mix.count(outcome(plain, "accepted"));
        Ok(())
    })
}

fn check(bytes: &[u8], plain: Answer, replies: &mut Replies<'_>) -> Result<(), String> {
    show::equal(told(replies.answer()?), told(plain))?;
    replies.shown()?.check("text", bytes)
}

/// What an answer to a text says.
pub fn told(answer: Answer) -> String {
    let Answer { class, value, rest } = answer;
    format!("class {class} number {value} line {rest}")
}

/// Which refusal an answer is, or else this word.
pub fn outcome(answer: Answer, not_refused: &str) -> String {
    match answer.class {
        REFUSED => format!("refused {:>2}", answer.value),
        _ => not_refused.to_string(),
    }
}
