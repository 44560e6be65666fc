//! The desk that is the proved program `probe`, started once for each look.

use std::ffi::OsStr;
use std::io::Write;
use std::process::{Command, Stdio};

use crate::answer::Answer;
use crate::instruction::{Direction, Instruction};
use crate::record::Record;
use crate::register::Register;
use crate::state::State;
use crate::written::Written;

use super::desk::{Desk, Reading, Seen};

/// The command line that runs `probe`.
pub struct Probe<'a> {
    pub program: &'a OsStr,
    pub arguments: Vec<&'a OsStr>,
}

impl Probe<'_> {
    fn run(&self, input: &[u8]) -> Result<Vec<u8>, String> {
        let program = self.program.display();
        let told = |error| format!("{program}: {error}");
        let mut child = Command::new(self.program)
            .args(&self.arguments)
            .stdin(Stdio::piped())
            .stdout(Stdio::piped())
            .spawn()
            .map_err(told)?;
        let mut stdin = child.stdin.take().expect("a pipe");
        // Who does not read its input does not write what is due, and that is told.
        let _ = stdin.write_all(input);
        drop(stdin);
        let output = child.wait_with_output().map_err(told)?;
        match output.status.success() {
            true => Ok(output.stdout),
            false => Err(format!("{program} did not end well: {}", output.status)),
        }
    }
}

impl Desk for Probe<'_> {
    fn look(&mut self, state: &State, record: Option<&Record>, count: u64) -> Result<Seen, String> {
        let mut journal: Vec<Record> = record.into_iter().copied().collect();
        journal.extend(["CNTVCT_EL0", "CNTV_TVAL_EL0"].map(|name| read_by_guest(name, count)));
        let mut input = state.to_image().to_vec();
        input.extend(journal.iter().flat_map(Record::pack));
        let output = self.run(&input)?;
        let written = Written::of(&output, journal.len()).map_err(|error| error.to_string())?;
        let [.., virtual_count, tval] = written.answers.as_slice() else {
            unreachable!("an answer to each record");
        };
        Ok(Seen {
            state: written.state,
            lines: written.lines,
            virtual_count: reading(virtual_count),
            tval: reading(tval),
        })
    }
}

fn read_by_guest(name: &str, count: u64) -> Record {
    let instruction = Instruction {
        direction: Direction::Mrs,
        register: Register::named(name).expect("a timer register"),
        rt: 0,
    };
    Record {
        word: instruction.word(),
        level: 1,
        count,
        ..Record::default()
    }
}

fn reading(answer: &Answer) -> Reading {
    match (answer.number, answer.mask) {
        (0, 0) => Reading::Value(answer.value),
        (0, _) => Reading::Unknown,
        _ => Reading::Refused,
    }
}
