//! Document 01, 'Who may touch what', and document 02, request 1: one page for each register
//! family.
//!
//! Rules are tried in order; the first that fits decides. Each stands with the clause that has it.

mod cnthctl;
mod cnthp;
mod cnthvs;
mod cntkctl;
mod cntp;
mod cntpct;
mod cntpoff;
mod cntv;
mod cntvct;
mod cntvoff;
mod counters;
mod ruling;

use crate::control::Control;
use crate::reading::Reading;

pub(crate) use ruling::{Ruling, Way};

impl Reading<'_> {
    /// (a) of each list for EL0: not host, the CNTKCTL bit 0: trap to EL2 if EL2 on and TGE 1, else
    /// to EL1. Gives whether it is the one, and whether it is the other.
    fn letter_a(&self, control: Control) -> (bool, bool) {
        let trapped = !self.host() && !self.bit(control);
        let to_el2 = self.paper.el0_trap_goes_to_el2(&self.state);
        (trapped && to_el2, trapped && !to_el2)
    }
}
