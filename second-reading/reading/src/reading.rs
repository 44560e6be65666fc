//! The reading at work: a machine, the paper that is read, and how often each clause decided.

use crate::clause::Clause;
use crate::control::Control;
use crate::paper::{AsWritten, Paper};
use crate::state::{Level, State};
use crate::tally::{Cell, Tally};

/// One machine as this reading of the paper has it.
#[derive(Clone)]
pub struct Reading<'p> {
    pub state: State,
    pub tally: Tally,
    pub(crate) paper: &'p dyn Paper,
}

/// A rule: the clause that has it, whether it fits, and what it comes to.
pub(crate) type Rule<T> = (Clause, bool, T);

impl Reading<'static> {
    pub fn new(state: State) -> Reading<'static> {
        Reading::of(&AsWritten, state)
    }
}

impl<'p> Reading<'p> {
    /// A reading of another paper.
    pub fn of(paper: &'p dyn Paper, state: State) -> Reading<'p> {
        Reading {
            state,
            tally: Tally::default(),
            paper,
        }
    }

    /// Rules are tried in order; the first that fits decides.
    pub(crate) fn first_that_fits<T: Copy>(&self, rules: &[Rule<T>]) -> Option<(Clause, T)> {
        let decides = |&&(clause, fits, _): &&Rule<T>| fits && self.paper.tries(clause);
        let &(clause, _, result) = rules.iter().find(decides)?;
        Some((clause, result))
    }

    /// What the first rule that fits comes to, or else the last; it is noted.
    pub(crate) fn decide<T: Copy>(
        &mut self,
        cell: impl Into<Cell>,
        rules: &[Rule<T>],
        otherwise: (Clause, T),
    ) -> T {
        let (clause, result) = self.first_that_fits(rules).unwrap_or(otherwise);
        self.note(clause, cell);
        result
    }

    /// Whether a rule that stands alone decides; if so, it is noted.
    pub(crate) fn fits(&mut self, cell: impl Into<Cell>, clause: Clause, fits: bool) -> bool {
        let decides = self.first_that_fits(&[(clause, fits, ())]).is_some();
        if decides {
            self.note(clause, cell);
        }
        decides
    }

    pub(crate) fn note(&mut self, clause: Clause, cell: impl Into<Cell>) {
        self.tally.note(clause, cell.into());
    }

    pub(crate) fn bit(&self, control: Control) -> bool {
        self.paper.bit(&self.state, control)
    }

    pub(crate) fn bits<const N: usize>(&self, controls: [Control; N]) -> [bool; N] {
        controls.map(|control| self.bit(control))
    }

    pub(crate) fn el2_on(&self) -> bool {
        self.paper.el2_on(&self.state)
    }

    pub(crate) fn host(&self) -> bool {
        self.paper.host(&self.state)
    }

    pub(crate) fn secure(&self, level: Level) -> bool {
        self.paper.secure(&self.state, level)
    }

    pub(crate) fn offset_on(&self) -> bool {
        self.paper.offset_on(&self.state)
    }
}
