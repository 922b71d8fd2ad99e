//! The reader: policy text to table.

use crate::file::File;
use crate::page;
use crate::policy::Policy;
use crate::refusal::{Refusal, SHORT_TABLE};
use crate::rules;
use crate::table::{words_of, TABLE_WORDS};
use crate::text::bytes_fault;

/// An accepted file as written and as meant; refusals 2 to 11 in order.
pub fn accepted(text: &[u8]) -> Result<(File<'_>, Policy), Refusal> {
    if let Some(refusal) = bytes_fault(text) {
        return Err(refusal);
    }
    let file = page::file(text)?;
    let policy = rules::policy(&file)?;
    Ok((file, policy))
}

/// The meaning of a text; refusals 2 to 11.
pub fn policy_of(text: &[u8]) -> Result<Policy, Refusal> {
    accepted(text).map(|(_, policy)| policy)
}

/// Writes the table of a text. 1 changes nothing; 2 to 11 leave the first
/// 16,384 words zero; "words past 16,384 never change".
pub fn read(text: &[u8], table: &mut [u16]) -> Result<(), Refusal> {
    let Some(words) = table.get_mut(..TABLE_WORDS) else {
        return Err(Refusal::of(SHORT_TABLE));
    };
    match policy_of(text) {
        Ok(policy) => {
            words.copy_from_slice(&words_of(&policy));
            Ok(())
        }
        Err(refusal) => {
            words.fill(0);
            Err(refusal)
        }
    }
}
