//! A journal's moments over its counts: the virtual count, the TVAL that a guest would read, and the
//! lines. What is drawn is what the desk says; nothing here knows a rule, but where to ask, whose
//! offset is whose, and which bit turns one on.

mod column;
mod deadlines;
mod desk;
mod labels;
mod moments;
mod picture;
mod probe;
#[cfg(test)]
mod samples;
mod svg;
mod table;
mod track;
#[cfg(test)]
mod well_formed;

pub use desk::{Desk, Reading, Seen};
pub use moments::{moments, Cause, Moment};
pub use picture::picture;
pub use probe::Probe;
pub use table::table;
