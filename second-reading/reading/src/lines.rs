//! Document 01, 'Timer met' and 'What the desk answers': the lines question.

use crate::clause::Clause::*;
use crate::reading::Reading;
use crate::state::TimerName;
use crate::tally::Cell;

/// The number of the lines question, and a bit for each raised line: bit 0 is CNTP, then in
/// the paper's order.
#[derive(Clone, Copy, Debug, Default, PartialEq, Eq)]
pub struct Lines {
    pub number: u8,
    pub raised: u8,
}

impl Reading<'_> {
    /// The lines at a physical count. Refused, no line is raised.
    pub fn lines(&mut self, count: u64) -> Lines {
        if let Err(refusal) = self.possible_for_lines() {
            self.note(refusal.clause, Cell::Whole);
            return Lines {
                number: refusal.number,
                raised: 0,
            };
        }
        let mut raised = 0;
        for timer in TimerName::ALL {
            raised |= u8::from(self.line(timer, count)) << timer as u8;
        }
        Lines { number: 0, raised }
    }

    /// A line is raised if met and IMASK is 0.
    fn line(&mut self, name: TimerName, physical: u64) -> bool {
        let timer = *self.state.timer(name);
        let count = self.count_for_met(name, physical);
        self.note_edge(name, count, LineAtCval, LineBelowCval);
        let met = self.paper.met(&timer, count);
        self.decide(
            name,
            &[
                (LineDisabled, !met && !timer.enable, false),
                (LineNotMet, !met, false),
                (LineMasked, timer.imask, false),
            ],
            (LineRaised, true),
        )
    }
}
