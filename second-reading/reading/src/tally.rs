//! How often each clause of the paper decided.

use std::collections::BTreeMap;

use crate::clause::Clause;
use crate::instruction::{Direction, Instruction};
use crate::register::Register;
use crate::state::TimerName;

/// Where a clause decided.
#[derive(Clone, Copy, Debug, PartialEq, Eq, PartialOrd, Ord)]
pub enum Cell {
    Whole,
    Call(Register, Direction),
    Timer(TimerName),
}

impl From<Instruction> for Cell {
    fn from(instruction: Instruction) -> Cell {
        Cell::Call(instruction.register, instruction.direction)
    }
}

impl From<TimerName> for Cell {
    fn from(timer: TimerName) -> Cell {
        Cell::Timer(timer)
    }
}

/// The count of decisions by clause and place.
#[derive(Clone, Debug, Default)]
pub struct Tally {
    counts: BTreeMap<(Clause, Cell), u64>,
}

impl Tally {
    pub(crate) fn note(&mut self, clause: Clause, cell: Cell) {
        *self.counts.entry((clause, cell)).or_default() += 1;
    }

    /// Takes over what another tally has counted.
    pub fn add(&mut self, other: &Tally) {
        for (&place, count) in &other.counts {
            *self.counts.entry(place).or_default() += count;
        }
    }

    pub fn count(&self, clause: Clause, cell: Cell) -> u64 {
        self.counts.get(&(clause, cell)).copied().unwrap_or(0)
    }

    /// How often the clause decided, wherever.
    pub fn total(&self, clause: Clause) -> u64 {
        self.counts
            .iter()
            .filter(|((counted, _), _)| *counted == clause)
            .map(|(_, count)| count)
            .sum()
    }

    /// The places in the clauses' scopes that were never met.
    pub fn missing(&self) -> Vec<(Clause, Cell)> {
        Clause::ALL
            .iter()
            .flat_map(|&clause| clause.scope().cells().into_iter().map(move |c| (clause, c)))
            .filter(|&(clause, cell)| self.count(clause, cell) == 0)
            .collect()
    }
}

#[cfg(test)]
mod tests {
    use super::*;

    #[test]
    fn a_clause_is_missing_until_each_cell_of_its_scope_is_met() {
        let mut tally = Tally::default();
        let lacks = |tally: &Tally| {
            let missing = tally.missing();
            missing
                .iter()
                .filter(|(c, _)| *c == Clause::TvalRead)
                .count()
        };
        assert_eq!(lacks(&tally), 6);
        tally.note(Clause::TvalRead, TimerName::Cntv.into());
        tally.note(Clause::TvalRead, TimerName::Cntv.into());
        assert_eq!(lacks(&tally), 5);
        assert_eq!(tally.total(Clause::TvalRead), 2);
        let mut sum = tally.clone();
        sum.add(&tally);
        assert_eq!(sum.count(Clause::TvalRead, TimerName::Cntv.into()), 4);
    }
}
