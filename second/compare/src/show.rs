//! Inputs as text, so that a difference can be read and made again.

use cases::events::OwnEvent;
use cases::stored::runs;
use second::names::FOUR;

/// A table as its length and the stretches of it that are not zero.
pub fn table(words: &[u16]) -> String {
    let mut out = format!("table of {} words, not zero:", words.len());
    for (first, words) in runs(words) {
        out += &format!("\n  from {first}: {words:?}");
    }
    out
}

/// A text as a byte string, one line of it on each line.
pub fn text(text: &[u8]) -> String {
    let mut out = format!("text of {} bytes:", text.len());
    for (place, line) in text.split_inclusive(|&byte| byte == b'\n').enumerate() {
        out += &format!("\n  {}: \"{}\"", place + 1, line.escape_ascii());
    }
    out
}

/// A list, each four of its words on a line of its own.
pub fn list(words: &[u32]) -> String {
    let mut out = format!("list of {} words:", words.len());
    for four in words.chunks(FOUR) {
        out += &format!("\n  {four:?}");
    }
    out
}

pub fn event(event: &OwnEvent) -> String {
    format!("{event:?}")
}

/// Puts the inputs before what is wrong.
pub fn difference(inputs: &[String], fault: String) -> String {
    format!("{}\n{fault}", inputs.join("\n"))
}

/// What both said, if they differ.
pub fn equal<T: PartialEq + std::fmt::Debug>(proved: T, plain: T) -> Result<(), String> {
    if proved == plain {
        return Ok(());
    }
    Err(format!("proved: {proved:?}\nplain:  {plain:?}"))
}
