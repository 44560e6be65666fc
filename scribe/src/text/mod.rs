//! Text to bytes: lines of words and signs, and what they may say.

mod fault;
mod journal;
mod line;
mod lines;
mod nearest;
mod number;
mod quoted;
mod state;
mod token;

pub use fault::Fault;
pub use journal::{entries, journal_of, pack, Entry};
pub(crate) use lines::LINE_ENDS;
pub use number::number_of;
pub use quoted::quoted;
pub use state::state_of;
