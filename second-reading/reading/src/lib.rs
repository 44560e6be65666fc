//! A second reading of the paper: what one trapped timer access answers, which lines are raised,
//! and how journals and states are packed.
//!
//! It is written from the paper and Arm's register pages alone. [`Paper`] has the paper's
//! sentences; the other files have its lists and tables, each under the heading that it names.
//! Where the pages differ, the paper's text decides.
//!
//! Every decision names the [`Clause`] of the paper that made it, so that a comparison can show
//! what it reached.

mod access;
mod bits;
mod clause;
mod control;
mod controls;
mod counts;
mod desk;
mod fields;
mod image;
mod instruction;
mod journal;
mod lines;
mod listed;
mod offsets;
mod pages;
mod paper;
mod reading;
mod record;
mod refusal;
mod register;
mod scope;
mod state;
mod tally;
mod values;

pub use access::{Access, Answer};
pub use clause::{Clause, InPrint};
pub use control::Control;
pub use fields::{Field, Layout};
pub use image::{ImageError, IMAGE_BYTES};
pub use instruction::{Direction, Instruction, Stranger};
pub use lines::Lines;
pub use paper::{AsWritten, Paper};
pub use reading::Reading;
pub use record::{Record, RECORD_BYTES, RECORD_LIMIT};
pub use register::{Part, Register};
pub use scope::Scope;
pub use state::{ControlName, Level, State, Timer, TimerName};
pub use tally::{Cell, Tally};
pub use values::Masked;
