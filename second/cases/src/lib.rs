//! Cases for the second program: texts, questions about them, events and tables
//! from a seed.
//!
//! The same seed gives the same cases on every machine. Values come from
//! small pools, so that matches, clashes, grants and repeats happen often.
#![forbid(unsafe_code)]

pub mod bursts;
pub mod damage;
pub mod dice;
pub mod draft;
pub mod ends;
pub mod events;
pub mod fillings;
pub mod findings;
pub mod full;
pub mod large;
pub mod limits;
pub mod listings;
pub mod names;
pub mod namespaces;
pub mod patterns;
pub mod readings;
pub mod stored;
pub mod tables;
pub mod texts;
pub mod write;

pub use dice::Dice;
