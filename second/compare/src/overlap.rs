//! `overlap`: a table to its first clashing pair and a witness.

use crate::case::Check;
use crate::lent::Value;
use crate::show;
use crate::wire::{Call, Function, Replies, Requests};
use cases::patterns::{any_domain, has_domain, Whose};
use cases::{tables, Dice};
use second::{decode, overlap, Answer, Overlap, Policy};

const TABLE: u32 = 0;
const WITNESS: u32 = 1;

pub fn ask(_: u64, dice: &mut Dice, requests: &mut Requests) -> Check {
    let words = tables::table(dice);
    let room = *dice.pick(&[0, 1, 29, 30, 30, 30, 30, 30, 31, 31, 40, 100]);
    let before = vec![u16::CANARY; room];
    requests.lend(TABLE, &words);
    requests.lend(WITNESS, &before);
    requests.call(&Call::new(Function::Overlap, &[TABLE, WITNESS], &[]));
    requests.show(WITNESS);
    requests.show(TABLE);
    Box::new(move |replies, mix| {
        let mut expected = before;
        let plain = overlap(&words, &mut expected);
        check_replies(&words, &expected, plain, replies).map_err(|fault| {
            let room = format!("witness of {room} words");
            show::difference(&[show::table(&words), room], fault)
        })?;
        mix.count(name(plain));
        let policy = decode(&words).filter(|policy| any_domain(policy, Whose::Entry));
        if let Some(policy) = policy {
            mix.count(name_with_domains(&policy, plain));
        }
        Ok(())
    })
}

fn check_replies(
    table: &[u16],
    expected: &[u16],
    plain: Overlap,
    replies: &mut Replies<'_>,
) -> Result<(), String> {
    show::equal(told(replies.answer()?), told(plain.answer()))?;
    replies.shown()?.check("witness", expected)?;
    replies.shown()?.check("table", table)
}

fn told(answer: Answer) -> String {
    let Answer { class, value, rest } = answer;
    let [lower, higher, length, uid] = rest.to_le_bytes();
    format!("class {class} value {value} lower {lower} higher {higher} length {length} uid {uid}")
}

fn name(report: Overlap) -> String {
    match report {
        Overlap::Clear => "clear".to_string(),
        Overlap::Clash { length, .. } => format!("clash of {length:>2}"),
        Overlap::Refused(number) => format!("refused {number}"),
    }
}

/// The same where some entry names a domain.
fn name_with_domains(policy: &Policy, report: Overlap) -> &'static str {
    let names_domain = |entry: u8| has_domain(&policy.entries[usize::from(entry)].context);
    match report {
        Overlap::Clash { lower, higher, .. } if names_domain(lower) || names_domain(higher) => {
            "with domains, clash of one that names one"
        }
        Overlap::Clash { .. } => "with domains, clash of others",
        Overlap::Clear => "with domains, clear",
        Overlap::Refused(_) => "with domains, refused",
    }
}
