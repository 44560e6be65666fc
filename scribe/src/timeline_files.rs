//! `scribe timeline`: what a journal does to the lines, by what `probe` says.

use std::fs;

use scribe::show::{self, Unshowable};
use scribe::timeline::{moments, picture, table, Probe};
use scribe::{Record, RECORD_LIMIT};

use crate::files::{os, read, Argument, Failure};

struct Asked<'a> {
    state: Argument<'a>,
    journal: Argument<'a>,
    svg: Option<Argument<'a>>,
    probe: Probe<'a>,
}

impl<'a> Asked<'a> {
    fn by(options: &[Argument<'a>]) -> Result<Asked<'a>, Failure> {
        let (files, svg, program, arguments) = match options {
            [state, journal, b"--", program, arguments @ ..] => {
                ([state, journal], None, program, arguments)
            }
            [state, journal, b"--svg", svg, b"--", program, arguments @ ..] => {
                ([state, journal], Some(*svg), program, arguments)
            }
            other => return Err(Failure::no_sense_in(b"timeline", other)),
        };
        let [state, journal] = files;
        Ok(Asked {
            state,
            journal,
            svg,
            probe: Probe {
                program: os(program),
                arguments: arguments.iter().map(|argument| os(argument)).collect(),
            },
        })
    }
}

pub(crate) fn timeline(options: &[Argument]) -> Result<Vec<u8>, Failure> {
    let mut asked = Asked::by(options)?;
    let state = show::state_in(&read(asked.state)?).map_err(unshowable)?;
    let journal = journal(asked.journal)?;
    let moments = moments(&mut asked.probe, &state, &journal).map_err(failure)?;
    if let Some(file) = asked.svg {
        let written = fs::write(os(file), picture(&moments));
        let file = String::from_utf8_lossy(file);
        written.map_err(|error| failure(format!("{file}: {error}")))?;
    }
    Ok(table(&moments).into_bytes())
}

/// Records are served one by one here, so that none but this sees that there are too many.
fn journal(file: Argument) -> Result<Vec<Record>, Failure> {
    let records = show::records(&read(file)?).map_err(unshowable)?;
    match records.len() {
        0..=RECORD_LIMIT => Ok(records),
        many => Err(failure(format!(
            "{many} records, over {RECORD_LIMIT}, are refused with 7"
        ))),
    }
}

fn unshowable(error: Unshowable) -> Failure {
    failure(error.to_string())
}

fn failure(message: String) -> Failure {
    Failure::Input(format!("scribe: {message}"))
}
