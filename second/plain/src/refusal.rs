//! Document 01, "Numbers that come back".

use crate::answer::{Answer, REFUSED};

/// A number and the line it is about; line 0 for all but 3 to 11.
#[derive(Clone, Copy, Debug, PartialEq, Eq)]
pub struct Refusal {
    pub number: u16,
    pub line: u32,
}

pub const SHORT_TABLE: u16 = 1;
pub const LONG_TEXT: u16 = 2;
pub const BYTE: u16 = 3;
pub const LAYOUT: u16 = 4;
pub const SCALAR: u16 = 5;
pub const COUNT: u16 = 6;
pub const TWICE: u16 = 7;
pub const UNKNOWN: u16 = 8;
pub const EMPTY: u16 = 9;
pub const UNBOUND: u16 = 10;
pub const SAME_PRINCIPAL: u16 = 11;
pub const NOT_WELL_FORMED: u16 = 20;
pub const STACK: u16 = 21;
pub const ALLOCATION: u16 = 22;
pub const OPERATION: u16 = 23;
pub const SHORT_OUTPUT: u16 = 30;
pub const LONG_FILLED: u16 = 31;
pub const SHORT_WITNESS: u16 = 40;

impl Refusal {
    /// A refusal that names a line (3 to 11).
    pub fn at(number: u16, line: u32) -> Refusal {
        Refusal { number, line }
    }

    /// "All but 3 to 11 return line 0."
    pub fn of(number: u16) -> Refusal {
        Refusal { number, line: 0 }
    }

    /// "The line returned is the smallest at fault."
    pub fn smallest(number: u16, lines: impl IntoIterator<Item = u32>) -> Option<Refusal> {
        let line = lines.into_iter().min()?;
        Some(Refusal::at(number, line))
    }

    /// What is answered to a text: a refusal with its number and line, or
    /// class 2, accepted.
    pub fn answer(refusal: Option<Refusal>) -> Answer {
        let (class, value, rest) = match refusal {
            Some(refusal) => (REFUSED, refusal.number, refusal.line),
            None => (2, 0, 0),
        };
        Answer { class, value, rest }
    }

    /// What is answered where something is made of a text: a refusal likewise,
    /// or class 2 with its size.
    pub fn answer_or_size(made: Result<usize, Refusal>) -> Answer {
        let accepted = |size| Answer {
            // At most 65,536.
            rest: size as u32,
            ..Refusal::answer(None)
        };
        made.map_or_else(|refusal| Refusal::answer(Some(refusal)), accepted)
    }
}
