//! One record, answer or state in words, and the end of a run.

mod answer;
mod end;
mod field;
mod number;
mod record;
mod state;

pub use answer::{answer, lone_answer};
pub use end::{changes, lines};
pub(crate) use field::held_in;
pub(crate) use number::number;
pub use record::record;
pub use state::{state, state_text};

/// What fits a terminal.
pub(crate) const COLUMNS: usize = 80;
