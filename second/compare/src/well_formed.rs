//! `well_formed`: a table to yes or no.

use crate::case::Check;
use crate::show;
use crate::wire::{Call, Function, Replies, Requests};
use cases::namespaces::has_namespace;
use cases::patterns::{any_context, any_domain, Whose};
use cases::{tables, Dice};
use second::decode;

pub fn ask(_: u64, dice: &mut Dice, requests: &mut Requests) -> Check {
    let words = if dice.percent(50) {
        tables::doubtful_table(dice)
    } else {
        tables::table(dice)
    };
    requests.lend(0, &words);
    requests.call(&Call::new(Function::WellFormed, &[0], &[]));
    requests.show(0);
    Box::new(move |replies, mix| {
        let plain = second::well_formed(&words);
        check(&words, plain, replies)
            .map_err(|fault| show::difference(&[show::table(&words)], fault))?;
        mix.count(plain);
        if let Some(policy) = decode(&words) {
            if any_domain(&policy, Whose::Entry) {
                mix.count("true, with a domain in a pattern");
            }
            if any_context(&policy, Whose::Object, has_namespace) {
                mix.count("true, with a namespace of an object");
            }
        }
        Ok(())
    })
}

fn check(words: &[u16], plain: bool, replies: &mut Replies<'_>) -> Result<(), String> {
    let answer = match replies.number()? {
        0 => "false".to_string(),
        1 => "true".to_string(),
        other => other.to_string(),
    };
    show::equal(answer, plain.to_string())?;
    replies.shown()?.check("table", words)
}
