//! What `probe` has to write, as the second reading has it.

use reading::{Paper, Reading, Record, Tally, RECORD_BYTES};

use crate::case::{Case, Kind};
use crate::difference::Output;

/// The bytes to be written, and the clauses that decided.
#[derive(Clone, Debug, Default)]
pub struct Expected {
    pub output: Vec<u8>,
    pub tally: Tally,
    /// How many records were answered.
    pub answered: usize,
}

impl Expected {
    /// What is written first, and then the final state, and the number and the lines at the count
    /// of the last record that was served.
    pub(crate) fn of(mut reading: Reading, first: Vec<u8>, served: &[u8]) -> Expected {
        let lines = reading.lines(last_count(served));
        let end = [lines.number, lines.raised];
        Expected {
            output: [&first[..], &reading.state.to_image(), &end].concat(),
            tally: reading.tally,
            answered: served.len() / RECORD_BYTES,
        }
    }

    /// The bytes as the second reading's.
    pub fn by_reading(&self) -> Output<'_> {
        Output {
            by: "second reading",
            bytes: &self.output,
        }
    }
}

/// The answers, the final state, and the number and the lines at the last record's count.
/// Under 128 bytes of input nothing is written.
pub fn expected(case: &Case, paper: &dyn Paper) -> Expected {
    if case.kind == Kind::ShortImage {
        return Expected::default();
    }
    let mut reading = Reading::of(paper, case.state);
    let mut answers = vec![0; case.journal.len()];
    let served = match reading.run(&case.journal, &mut answers) {
        0 => &case.journal[..],
        _ => &[],
    };
    answers.truncate(served.len());
    Expected::of(reading, answers, served)
}

/// The count of the last record, refused or not; 0 if there is none.
fn last_count(journal: &[u8]) -> u64 {
    let (records, _) = journal.as_chunks();
    records
        .last()
        .map_or(0, |record| Record::unpack(record).access.count)
}

#[cfg(test)]
mod tests {
    use super::*;
    use reading::{AsWritten, RECORD_LIMIT};

    #[test]
    fn each_kind_has_the_length_of_its_output() {
        let lengths: Vec<usize> = (0..8)
            .map(|seed| expected(&Case::of(seed), &AsWritten).output.len())
            .collect();
        let with = |records| records * RECORD_BYTES + 130;
        let [none, one, full, ordinary] = [0, 1, RECORD_LIMIT, 300].map(with);
        assert_eq!(lengths, [none, one, none, full, none, none, 0, ordinary]);
    }
}
