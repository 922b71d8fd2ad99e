//! The second program: document 01 once more, in plain Rust.
//!
//! It shares no code with the proved program, only the documents. Its worth
//! is that it can disagree.
#![forbid(unsafe_code)]

pub mod answer;
pub mod file;
pub mod filler;
pub mod judge;
pub mod lookup;
pub mod matching;
pub mod names;
pub mod overlap;
pub mod page;
pub mod policy;
pub mod program;
pub mod quick;
pub mod quick_judge;
pub mod reader;
pub mod refusal;
pub mod rules;
pub mod scalars;
pub mod table;
pub mod text;

pub use answer::Answer;
pub use filler::{fill, filled};
pub use judge::{judge, Event, Operation, Verdict};
pub use lookup::{lookup, Map};
pub use matching::matches;
pub use names::{find, list, Kind, LIST_WORDS};
pub use overlap::{overlap, Overlap, WITNESS_WORDS};
pub use page::{first_fault, page};
pub use policy::Policy;
pub use reader::{policy_of, read};
pub use refusal::Refusal;
pub use table::{decode, encode, well_formed, TABLE_WORDS};

/// The file of document 01, "A file, filled out".
pub const EXAMPLE: &str = include_str!("../example.policy");
