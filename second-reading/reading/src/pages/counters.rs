//! Document 01, 'Who may touch what': what holds for all four counters, before their pages.

use crate::access::Call;
use crate::clause::Clause::{CounterWritten, SsWithoutEcv};
use crate::instruction::Direction;
use crate::pages::{Ruling, Way::Undefined};
use crate::reading::Reading;

impl Reading<'_> {
    /// The SS forms give the same and are Undefined without ECV. All four are Undefined for MSR.
    pub(crate) fn undefined_counter(&self, call: &Call) -> Option<Ruling<()>> {
        let instruction = call.instruction;
        let missing = instruction.register.is_ss_form() && !self.state.ecv;
        let written = instruction.direction == Direction::Msr;
        self.first_that_fits(&[
            (SsWithoutEcv, missing, Undefined),
            (CounterWritten, written, Undefined),
        ])
    }
}
