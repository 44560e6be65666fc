//! Journals and states for people: text to bytes, and bytes to words.
//!
//! The bytes are those of docs/FORMATS.md. A text goes through [`entries`] to records, or through
//! [`state_of`] to a state; [`show`] takes whole files of bytes to lines, and [`words`] one thing at
//! a time.

mod answer;
mod bits;
mod comments;
mod control;
mod fields;
mod image;
mod instruction;
mod kind;
mod record;
mod register;
pub mod show;
mod state;
mod text;
pub mod timeline;
pub mod words;
mod written;

pub use answer::Answer;
pub use comments::with_comments;
pub use fields::{Change, FieldName};
pub use image::{ImageError, IMAGE_BYTES};
pub use kind::is_text;
pub use record::{Record, RECORD_BYTES, RECORD_LIMIT};
pub use state::{State, Timer, TIMERS};
pub use text::{entries, journal_of, number_of, pack, quoted, state_of, Entry, Fault};
pub use written::Lines;
