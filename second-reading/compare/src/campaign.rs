//! Many cases in a row, run against a program and kept.

use std::collections::HashSet;

use reading::{AsWritten, Tally};
use slips::Slip;

use crate::case::{Case, Kind};
use crate::difference::{explain, Output};
use crate::expected::expected;
use crate::program::{Program, Ran};
use crate::workers::shared_out;

/// How many differing cases are told of in full.
const TOLD: usize = 3;

/// A case with what the program wrote for it and how it ended.
#[derive(Debug)]
pub struct Captured {
    pub case: Case,
    pub ran: Ran,
}

/// The captured cases of one stretch of seeds.
#[derive(Debug)]
pub struct Campaign {
    pub captured: Vec<Captured>,
    seed: u64,
}

impl Captured {
    /// Runs the case of a seed.
    pub fn of(program: &Program, seed: u64) -> Result<Captured, String> {
        let case = Case::of(seed);
        let ran = program
            .run(&case.input())
            .map_err(|error| format!("case {seed:#018X}: {error}"))?;
        Ok(Captured { case, ran })
    }

    /// How the output differs from the expected one, in words, or how the program ended badly.
    pub fn difference(&self, expected: Output) -> Option<String> {
        let told = explain(&self.case, expected, self.ran.by_program());
        self.ran.with_its_end(self.case.seed, told)
    }
}

impl Campaign {
    /// Runs `length` cases, of the seeds from `seed` on.
    pub fn run(program: &Program, seed: u64, length: u64) -> Result<Campaign, String> {
        let seeds: Vec<u64> = (0..length).map(|place| seed.wrapping_add(place)).collect();
        let captured = shared_out(&seeds, |&seed| Captured::of(program, seed))?;
        Ok(Campaign { captured, seed })
    }

    /// The clauses that decided and the records answered, or the differences in words.
    pub fn compare(&self) -> Result<(Tally, usize), String> {
        let mut tally = Tally::default();
        let mut answered = 0;
        let mut told = Vec::new();
        for captured in &self.captured {
            let expected = expected(&captured.case, &AsWritten);
            told.extend(captured.difference(expected.by_reading()));
            tally.add(&expected.tally);
            answered += expected.answered;
        }
        all_agree(told)?;
        Ok((tally, answered))
    }

    /// Gives the same cases to another program, which has to write the same; else the
    /// differences in words.
    pub fn compare_with(&self, other: &Program) -> Result<(), String> {
        let theirs = Campaign::run(other, self.seed, self.captured.len() as u64)?;
        let pairs = self.captured.iter().zip(&theirs.captured);
        let told = pairs.filter_map(|(our, their)| their.difference(our.ran.by_program()));
        all_agree(told.collect())
    }

    /// How many different start states the program was given.
    pub fn start_states(&self) -> usize {
        self.captured
            .iter()
            .filter(|captured| captured.case.kind != Kind::ShortImage)
            .map(|captured| captured.case.state.to_image())
            .collect::<HashSet<_>>()
            .len()
    }

    /// The place of the first case that tells a slipped reading from the program.
    pub fn catches(&self, slip: &Slip) -> Option<usize> {
        self.captured.iter().position(|captured| {
            expected(&captured.case, slip.paper()).output != captured.ran.output
        })
    }
}

pub(crate) fn all_agree(mut told: Vec<String>) -> Result<(), String> {
    match told.len() {
        0 => Ok(()),
        differing => {
            told.truncate(TOLD);
            Err(format!("{differing} cases differ\n{}", told.concat()))
        }
    }
}
