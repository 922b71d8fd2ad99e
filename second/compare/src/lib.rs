//! Runs the proved functions and the plain ones on the same generated inputs
//! and stops at the first difference.
//!
//! The proved functions are called over the bridge, a small C program beside
//! this workspace's crates. There is one module for each sort of function: it
//! makes a case, asks for it, and checks the replies.
#![forbid(unsafe_code)]

pub mod bridge;
pub mod case;
pub mod fill;
pub mod find;
pub mod judge;
pub mod lent;
pub mod list;
pub mod name;
pub mod options;
pub mod overlap;
pub mod page;
pub mod read;
pub mod run;
pub mod show;
pub mod well_formed;
pub mod wire;

pub use bridge::Bridge;
pub use options::Options;
pub use run::run;
