//! One case: asked for, then checked.

use crate::wire::Replies;
use std::collections::BTreeMap;

/// Checks the replies to one case: nothing, or inputs and answers of a
/// difference.
pub type Check = Box<dyn FnOnce(&mut Replies<'_>, &mut Mix) -> Result<(), String>>;

/// How often each outcome came.
#[derive(Debug, Default)]
pub struct Mix {
    pub counts: BTreeMap<String, u64>,
}

impl Mix {
    pub fn count(&mut self, outcome: impl ToString) {
        *self.counts.entry(outcome.to_string()).or_default() += 1;
    }
}
