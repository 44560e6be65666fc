//! Whole journals, answer logs and state images in words.

use std::fmt;

use crate::answer::Answer;
use crate::fields::changes;
use crate::image::{ImageError, IMAGE_BYTES};
use crate::record::{Record, RECORD_BYTES};
use crate::state::State;
use crate::words;
use crate::written::Written;

/// Why bytes cannot be shown.
#[derive(Clone, Debug, PartialEq, Eq)]
pub enum Unshowable {
    /// A journal or an answer log that is not a whole number of records.
    Ragged {
        what: &'static str,
        length: usize,
    },
    /// More answers than records.
    MoreAnswers {
        records: usize,
        answers: usize,
    },
    /// A state image of another length.
    ImageLength(usize),
    Image(ImageError),
    /// What probe wrote has another length than is due.
    Written {
        found: usize,
        due: usize,
    },
}

impl fmt::Display for Unshowable {
    fn fmt(&self, f: &mut fmt::Formatter<'_>) -> fmt::Result {
        match self {
            Unshowable::Ragged { what, length } => write!(
                f,
                "the {what} has {length} bytes, not a whole number of {RECORD_BYTES}-byte records"
            ),
            Unshowable::MoreAnswers { records, answers } => write!(
                f,
                "the answer log has {answers} answers to a journal of {records} records"
            ),
            Unshowable::ImageLength(length) => {
                write!(f, "the state image has {length} bytes, not {IMAGE_BYTES}")
            }
            Unshowable::Image(error) => write!(f, "the state image is damaged: {error}"),
            Unshowable::Written { found, due } => {
                write!(f, "probe wrote {found} bytes where {due} were due")
            }
        }
    }
}

/// The records of a journal, one a line.
pub fn journal(journal: &[u8]) -> Result<String, Unshowable> {
    Ok(lines(records(journal)?.iter().map(words::record)))
}

/// The answers of a log, one a line.
pub fn answers(answers: &[u8]) -> Result<String, Unshowable> {
    let answers = records_of(answers, "answer log")?;
    Ok(lines(
        answers
            .iter()
            .map(|bytes| words::lone_answer(&Answer::unpack(bytes))),
    ))
}

/// The records of a journal, each with its answer. A run refused as a whole leaves none.
pub fn side_by_side(journal: &[u8], answers: &[u8]) -> Result<String, Unshowable> {
    let records = records_of(journal, "journal")?;
    let answers = records_of(answers, "answer log")?;
    if answers.len() > records.len() {
        return Err(Unshowable::MoreAnswers {
            records: records.len(),
            answers: answers.len(),
        });
    }
    let answers = answers.iter().map(Some).chain(std::iter::repeat(None));
    Ok(lines(records.iter().zip(answers).map(
        |(record, answer)| {
            let record = Record::unpack(record);
            let answer = match answer {
                Some(bytes) => words::answer(&Answer::unpack(bytes), record.word),
                None => "no answer".to_string(),
            };
            format!("{} -> {answer}", words::record(&record))
        },
    )))
}

/// A state image as the text that packs to it.
pub fn state(image: &[u8]) -> Result<String, Unshowable> {
    Ok(words::state_text(&state_in(image)?))
}

/// How a run ends: what `probe` wrote on a state and a journal, but for the answers.
pub fn end(image: &[u8], journal: &[u8], written: &[u8]) -> Result<String, Unshowable> {
    let first = state_in(image)?;
    let records = records(journal)?;
    let last = Written::of(written, records.len())?;
    let count = records.last().map(|record| record.count);
    let differs = words::changes(&changes(&first, &last.state));
    Ok(differs + &words::lines(&last.lines, count.unwrap_or_default()))
}

/// The state of an image.
pub fn state_in(image: &[u8]) -> Result<State, Unshowable> {
    let length = Unshowable::ImageLength(image.len());
    let image = image.try_into().map_err(|_| length)?;
    State::from_image(image).map_err(Unshowable::Image)
}

/// The records of a journal.
pub fn records(journal: &[u8]) -> Result<Vec<Record>, Unshowable> {
    let records = records_of(journal, "journal")?;
    Ok(records.iter().map(Record::unpack).collect())
}

fn records_of<'a>(
    bytes: &'a [u8],
    what: &'static str,
) -> Result<&'a [[u8; RECORD_BYTES]], Unshowable> {
    match bytes.as_chunks() {
        (records, []) => Ok(records),
        _ => Err(Unshowable::Ragged {
            what,
            length: bytes.len(),
        }),
    }
}

pub(crate) fn lines(lines: impl Iterator<Item = String>) -> String {
    lines.map(|line| line + "\n").collect()
}
