//! Many loans in a row, run by the bench and kept, and what they met.

use std::collections::BTreeMap;

use reading::{AsWritten, Clause, Tally};
use slips::Slip;

use crate::campaign::all_agree;
use crate::loan::{Lent, Loan};
use crate::program::{Program, Ran};
use crate::workers::shared_out;

/// The loans of one stretch of seeds, each with what the bench wrote.
#[derive(Debug)]
pub struct Loans {
    captured: Vec<(Loan, Ran)>,
}

impl Loans {
    /// Has the bench lend a buffer of every length for each of `length` cases, of the seeds from
    /// `seed` on.
    pub fn run(bench: &Program, seed: u64, length: u64) -> Result<Loans, String> {
        let loans: Vec<Loan> = (0..length)
            .map(|place| seed.wrapping_add(place))
            .flat_map(|seed| Lent::ALL.map(|lent| Loan::of(seed, lent)))
            .flatten()
            .collect();
        let ran = shared_out(&loans, |loan| loan.lend(bench))?;
        let captured = loans.into_iter().zip(ran).collect();
        Ok(Loans { captured })
    }

    pub fn count(&self) -> usize {
        self.captured.len()
    }

    /// The clauses that decided for each length, or the differences in words.
    pub fn compare(&self) -> Result<Met, String> {
        let mut met = Met::default();
        let mut told = Vec::new();
        for (loan, ran) in &self.captured {
            let expected = loan.expected(&AsWritten);
            told.extend(loan.difference(&expected, ran));
            met.tallies
                .entry(loan.lent)
                .or_default()
                .add(&expected.tally);
        }
        all_agree(told)?;
        Ok(met)
    }

    /// The place of the first loan that tells a slipped reading from the bench.
    pub fn catches(&self, slip: &Slip) -> Option<usize> {
        self.captured
            .iter()
            .position(|(loan, ran)| loan.expected(slip.paper()).output != ran.output)
    }
}

/// The clauses that decided, for each length of the buffer.
#[derive(Debug, Default)]
pub struct Met {
    tallies: BTreeMap<Lent, Tally>,
}

impl Met {
    /// One line for each length and each clause that is due there: how often it decided.
    pub fn table(&self) -> String {
        self.counts()
            .map(|(lent, clause, count)| {
                let lent = format!("{lent:?}");
                format!("{lent:<16} {:<44} {count:>6}\n", clause.to_string())
            })
            .collect()
    }

    /// The lengths with a clause that is due there and never decided.
    pub fn missing(&self) -> Vec<(Lent, Clause)> {
        self.counts()
            .filter(|&(.., count)| count == 0)
            .map(|(lent, clause, _)| (lent, clause))
            .collect()
    }

    fn counts(&self) -> impl Iterator<Item = (Lent, Clause, u64)> + '_ {
        let due = |lent: Lent| lent.due().iter().map(move |&clause| (lent, clause));
        Lent::ALL.into_iter().flat_map(due).map(|(lent, clause)| {
            let tally = self.tallies.get(&lent);
            (lent, clause, tally.map_or(0, |tally| tally.total(clause)))
        })
    }
}

#[cfg(test)]
mod tests {
    use super::*;

    #[test]
    fn each_clause_that_is_due_is_missing_until_it_decides_at_that_length() {
        let mut met = Met::default();
        assert_eq!(met.missing().len(), 19);
        let loan = Loan::of(1, Lent::OneByteShort).expect("a record has room for it");
        let tally = loan.expected(&AsWritten).tally;
        met.tallies.insert(Lent::OneByteShort, tally);
        let missing = met.missing();
        assert_eq!(missing.len(), 18);
        assert!(!missing.contains(&(Lent::OneByteShort, Clause::BufferShort)));
        assert!(met.table().contains("OneByteShort     8: answer buffer"));
    }
}
