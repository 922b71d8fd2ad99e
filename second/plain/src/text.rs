//! The text as bytes and as lines (refusals 2 and 3).

use crate::refusal::{Refusal, BYTE, LONG_TEXT};

/// "Text is at most 65,536 bytes."
pub const TEXT_LIMIT: usize = 65_536;

/// One line of the text without its end: "a CR directly before LF now belongs
/// to the line's end and to no value" (document 02, b).
#[derive(Clone, Copy, Debug)]
pub struct Line<'t> {
    /// Numbered from 1, skipped lines counted.
    pub number: u32,
    /// Where its first byte stands in the text.
    pub start: usize,
    pub bytes: &'t [u8],
    /// Whether an LF ends it; only the last line can lack one.
    pub ended: bool,
}

impl Line<'_> {
    /// The number of spaces before the first other byte.
    pub fn column(&self) -> usize {
        self.bytes.iter().take_while(|&&byte| byte == b' ').count()
    }

    /// "Lines that are blank (spaces only) or whose first non-space is `#`
    /// are skipped."
    pub fn is_skipped(&self) -> bool {
        matches!(self.bytes.get(self.column()), None | Some(b'#'))
    }

    /// Whether the line stands at a block's column, "for items, with `- `
    /// there".
    pub fn stands_at(&self, column: usize, item: bool) -> bool {
        self.column() == column && (!item || self.bytes[column..].starts_with(b"- "))
    }
}

/// The lines of a text, in order.
pub fn lines(text: &[u8]) -> Vec<Line<'_>> {
    let mut start = 0;
    let mut number: u32 = 0;
    let mut all = Vec::new();
    for piece in text.split_inclusive(|&byte| byte == b'\n') {
        number = number.saturating_add(1);
        let (bytes, ended) = match piece {
            [bytes @ .., b'\r', b'\n'] | [bytes @ .., b'\n'] => (bytes, true),
            bytes => (bytes, false),
        };
        all.push(Line {
            number,
            start,
            bytes,
            ended,
        });
        start += piece.len();
    }
    all
}

/// 2, "text over 65,536 bytes", CRs counted, then 3, "byte other than LF and
/// 0x20 to 0x7E", and "a CR anywhere else" than directly before LF, on the line
/// of the first such byte, in a skipped line too.
pub fn bytes_fault(text: &[u8]) -> Option<Refusal> {
    if text.len() > TEXT_LIMIT {
        return Some(Refusal::of(LONG_TEXT));
    }
    let is_good = |place: usize| match text[place] {
        b'\n' | 0x20..=0x7E => true,
        b'\r' => text.get(place + 1) == Some(&b'\n'),
        _ => false,
    };
    let place = (0..text.len()).find(|&place| !is_good(place))?;
    let before = text[..place].iter().filter(|&&byte| byte == b'\n').count();
    // At most 65,536 lines stand before it, so the number fits.
    Some(Refusal::at(BYTE, before as u32 + 1))
}
