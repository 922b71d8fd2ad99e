//! The small program of document 01: policy in, filled text or refusal out.

use crate::filler::fill;
use crate::text::TEXT_LIMIT;
use std::io::{self, Read, Write};

/// What the program writes for a text: "the filled text, or the refusal
/// number and line as `4 12` and LF".
pub fn answer(text: &[u8]) -> Vec<u8> {
    let mut output = vec![0; TEXT_LIMIT];
    match fill(text, &mut output) {
        Ok(length) => {
            output.truncate(length);
            output
        }
        Err(refusal) => format!("{} {}\n", refusal.number, refusal.line).into_bytes(),
    }
}

/// "Standard input is read to its end or until 65,537 bytes are in" (point
/// 22).
pub fn run(input: impl Read, mut output: impl Write) -> io::Result<()> {
    let mut text = Vec::new();
    input.take(TEXT_LIMIT as u64 + 1).read_to_end(&mut text)?;
    output.write_all(&answer(&text))?;
    output.flush()
}
