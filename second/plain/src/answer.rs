//! An answer as one number, laid out as `include/dovetenon.h` says: bits 0 to
//! 15 a value, bits 16 to 31 the class, bits 32 to 63 what else is told.

/// The class of a refusal, whatever refuses; its value is the number. No
/// answer has class 0.
pub const REFUSED: u16 = 1;

#[derive(Clone, Copy, Debug, PartialEq, Eq)]
pub struct Answer {
    pub class: u16,
    pub value: u16,
    pub rest: u32,
}

impl Answer {
    pub fn of(packed: u64) -> Answer {
        Answer {
            class: (packed >> 16) as u16,
            value: packed as u16,
            rest: (packed >> 32) as u32,
        }
    }

    pub fn packed(self) -> u64 {
        u64::from(self.rest) << 32 | u64::from(self.class) << 16 | u64::from(self.value)
    }
}
