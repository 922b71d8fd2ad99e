//! What goes over the bridge. `bridge/bridge.c` says how it is laid out.

use crate::lent::{Lent, Value};
use second::Answer;

/// The functions in the order of their numbers on the bridge.
#[derive(Clone, Copy, Debug, PartialEq, Eq)]
pub enum Function {
    WellFormed,
    Judge,
    JudgeKnown,
    Overlap,
    Page,
    Read,
    Fill,
    Name,
    List,
    Find,
}

impl Function {
    pub const ALL: [Function; 10] = [
        Function::WellFormed,
        Function::Judge,
        Function::JudgeKnown,
        Function::Overlap,
        Function::Page,
        Function::Read,
        Function::Fill,
        Function::Name,
        Function::List,
        Function::Find,
    ];

    pub fn name(self) -> &'static str {
        match self {
            Function::WellFormed => "well_formed",
            Function::Judge => "judge",
            Function::JudgeKnown => "judge_known",
            Function::Overlap => "overlap",
            Function::Page => "page",
            Function::Read => "read",
            Function::Fill => "fill",
            Function::Name => "name",
            Function::List => "list",
            Function::Find => "find",
        }
    }
}

pub const WHAT_IS_HERE: u32 = 0;
pub const LEND: u32 = 1;
pub const SHOW: u32 = 2;
pub const CALL: u32 = 3;
pub const TIME: u32 = 4;

/// A function, the slots of its stretches and its other parameters.
#[derive(Clone, Copy, Debug, Default, PartialEq, Eq)]
pub struct Call {
    pub function: u32,
    pub slots: [u32; 3],
    pub numbers: [u32; 8],
}

impl Call {
    /// Slots and numbers in the order of the header, 0 where there are fewer.
    pub fn new(function: Function, slots: &[u32], numbers: &[u32]) -> Call {
        let mut call = Call {
            function: function as u32,
            ..Call::default()
        };
        call.slots[..slots.len()].copy_from_slice(slots);
        call.numbers[..numbers.len()].copy_from_slice(numbers);
        call
    }
}

/// A round of requests.
#[derive(Debug, Default)]
pub struct Requests {
    bytes: Vec<u8>,
}

impl Requests {
    pub fn bytes(&self) -> &[u8] {
        &self.bytes
    }

    fn number(&mut self, number: u32) {
        self.bytes.extend_from_slice(&number.to_le_bytes());
    }

    fn length(&mut self, length: usize) {
        self.number(u32::try_from(length).expect("a length of 32 bits"));
    }

    pub fn what_is_here(&mut self) {
        self.number(WHAT_IS_HERE);
    }

    /// Lends these values, between canaries.
    pub fn lend<T: Value>(&mut self, slot: u32, values: &[T]) {
        let bytes = Lent::new(values).bytes();
        self.number(LEND);
        self.number(slot);
        self.length(Lent::<T>::guard());
        self.length(bytes.len());
        self.bytes.extend_from_slice(&bytes);
    }

    /// Asks what a slot holds by then.
    pub fn show(&mut self, slot: u32) {
        self.number(SHOW);
        self.number(slot);
    }

    pub fn call(&mut self, call: &Call) {
        self.number(CALL);
        self.one_call(call);
    }

    /// Asks how long these calls take, so many times over.
    pub fn time(&mut self, times: u32, calls: &[Call]) {
        self.number(TIME);
        self.number(times);
        self.length(calls.len());
        calls.iter().for_each(|call| self.one_call(call));
    }

    fn one_call(&mut self, call: &Call) {
        self.number(call.function);
        call.slots.iter().for_each(|&slot| self.number(slot));
        call.numbers.iter().for_each(|&number| self.number(number));
    }
}

/// A round of replies, taken in the order of the requests.
#[derive(Debug)]
pub struct Replies<'r> {
    left: &'r [u8],
    /// What is said when there is no reply.
    fault: String,
}

impl<'r> Replies<'r> {
    pub fn new(bytes: &'r [u8]) -> Replies<'r> {
        Replies {
            left: bytes,
            fault: "the bridge's replies are cut off".to_string(),
        }
    }

    /// No replies, for this reason.
    pub fn none(fault: String) -> Replies<'r> {
        Replies { left: &[], fault }
    }

    pub fn is_empty(&self) -> bool {
        self.left.is_empty()
    }

    fn take(&mut self, length: usize) -> Result<&'r [u8], String> {
        let (taken, left) = self
            .left
            .split_at_checked(length)
            .ok_or_else(|| self.fault.clone())?;
        self.left = left;
        Ok(taken)
    }

    /// The reply to `time`: the time, then the sum of the answers.
    pub fn number(&mut self) -> Result<u64, String> {
        let low_first = |number, &byte| number << 8 | u64::from(byte);
        Ok(self.take(8)?.iter().rev().fold(0, low_first))
    }

    /// The reply to a call.
    pub fn answer(&mut self) -> Result<Answer, String> {
        self.number().map(Answer::of)
    }

    fn bytes(&mut self) -> Result<&'r [u8], String> {
        let low_first = |number, &byte| number << 8 | usize::from(byte);
        let length = self.take(4)?.iter().rev().fold(0, low_first);
        self.take(length)
    }

    /// The reply to `what_is_here`.
    pub fn text(&mut self) -> Result<String, String> {
        let bytes = self.bytes()?.to_vec();
        String::from_utf8(bytes).map_err(|_| "the bridge's text is none".to_string())
    }

    /// The reply to `show`.
    pub fn shown<T: Value>(&mut self) -> Result<Lent<T>, String> {
        Lent::of(self.bytes()?).ok_or_else(|| "the bridge shows too little".to_string())
    }
}
