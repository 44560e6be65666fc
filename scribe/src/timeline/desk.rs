//! What is asked for a moment.

use crate::record::Record;
use crate::state::State;
use crate::written::Lines;

/// Who answers: `probe`, or in a test one that stands in for it.
pub trait Desk {
    /// What is seen of a state at a count, after the record if there is one. It says what went
    /// wrong, where nothing can be seen.
    fn look(&mut self, state: &State, record: Option<&Record>, count: u64) -> Result<Seen, String>;
}

/// What a guest's read at EL1 gives.
#[derive(Clone, Copy, Debug, PartialEq, Eq)]
pub enum Reading {
    Value(u64),
    /// It is done, and bits of it are unknown.
    Unknown,
    /// It is not done: a trap, or a context that cannot be.
    Refused,
}

#[derive(Clone, Debug, PartialEq, Eq)]
pub struct Seen {
    pub state: State,
    pub lines: Lines,
    pub virtual_count: Reading,
    pub tval: Reading,
}
