//! `name`: a text, a map and a domain number to where the domain's name stands
//! in the text.

use crate::case::{Check, Mix};
use crate::lent::Lent;
use crate::page::outcome;
use crate::show;
use crate::wire::{Call, Function, Replies, Requests};
use cases::names::{questions, Question};
use cases::{texts, Dice};
use second::file::{File, Word};
use second::lookup::{self, name_in};
use second::reader::accepted;
use second::{Answer, Map, Refusal};

const TEXT: u32 = 0;

/// A text and many questions about it.
pub fn ask(case: u64, dice: &mut Dice, requests: &mut Requests) -> Check {
    let text = texts::first(case).unwrap_or_else(|| texts::text(dice));
    let questions = questions(dice, &text);
    requests.lend(TEXT, &text);
    for question in &questions {
        requests.call(&call(*question, TEXT));
    }
    requests.show(TEXT);
    Box::new(move |replies, mix| {
        check(&text, &questions, replies, mix)
            .map_err(|fault| show::difference(&[show::text(&text)], fault))
    })
}

/// The call that asks about the text lent in this slot.
pub fn call(question: Question, slot: u32) -> Call {
    let domain = question.domain as u64;
    let numbers = [question.map.into(), domain as u32, (domain >> 32) as u32];
    Call::new(Function::Name, &[slot], &numbers)
}

/// The text, lent once for all questions, is looked at first: it is where the
/// answers lead to.
fn check(
    text: &[u8],
    questions: &[Question],
    replies: &mut Replies<'_>,
    mix: &mut Mix,
) -> Result<(), String> {
    let answers = questions.iter().map(|_| replies.answer());
    let answers = answers.collect::<Result<Vec<Answer>, String>>()?;
    let lent: Lent<u8> = replies.shown()?;
    lent.check("text", text)?;
    let file = accepted(text).map(|(file, _)| file);
    for (question, answer) in questions.iter().zip(answers) {
        let plain = plain(file.as_ref().ok(), question);
        check_one(lent.get(), plain, answer)
            .map_err(|fault| show::difference(&[format!("{question:?}")], fault))?;
        let refusal = file.as_ref().err().copied();
        mix.count(outcome(Refusal::answer(refusal), name(question, plain)));
    }
    Ok(())
}

/// What `second::lookup` says, the text read once for all questions.
fn plain<'t>(file: Option<&File<'t>>, question: &Question) -> Option<Word<'t>> {
    name_in(file?, Map::of(question.map)?, question.domain)
}

/// The bytes at the place that is answered are the name.
fn check_one(text: &[u8], plain: Option<Word<'_>>, answer: Answer) -> Result<(), String> {
    show::equal(told(answer), told(lookup::answer(plain)))?;
    let there = &text[answer.rest as usize..][..answer.value.into()];
    let name = plain.map_or(&b""[..], |name| name.bytes);
    show::equal(
        there.escape_ascii().to_string(),
        name.escape_ascii().to_string(),
    )
}

fn told(answer: Answer) -> String {
    let Answer { class, value, rest } = answer;
    format!("class {class} length {value} start {rest}")
}

/// What comes of a question about a text that is not refused.
fn name(question: &Question, plain: Option<Word<'_>>) -> &'static str {
    match (Map::of(question.map), plain) {
        (None, _) => "no such map",
        (_, None) => "no such domain",
        (Some(Map::Objects), _) => "object domain",
        (Some(Map::Subjects), _) => "subject domain",
    }
}
