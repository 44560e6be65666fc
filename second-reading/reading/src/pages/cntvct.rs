//! Document 01, 'Who may touch what': CNTVCT (source documents 003, 004), and CNTVCTSS, which gives
//! the same.

use crate::access::Call;
use crate::clause::Clause::*;
use crate::control::Control::*;
use crate::pages::Ruling;
use crate::pages::Way::{Allowed, TrapToEl1, TrapToEl2};
use crate::reading::Reading;
use crate::state::Level::{self, *};

impl Reading<'_> {
    pub(crate) fn cntvct(&self, level: Level) -> Ruling<()> {
        match level {
            El0 => self.cntvct_at_el0(),
            El1 => self.cntvct_at_el1(),
            El2 => (CntvctEl2, Allowed(())),
            El3 => (CntvctEl3, Allowed(())),
        }
    }

    /// As CNTV (a) to (c) with EL0VCTEN and EL1TVCT.
    fn cntvct_at_el0(&self) -> Ruling<()> {
        let (on, host, ecv) = (self.el2_on(), self.host(), self.state.ecv);
        let (a_to_el2, a_to_el1) = self.letter_a(CntkctlEl0vcten);
        let [el0vcten, el1tvct] = self.bits([CnthctlEl0vcten, El1tvct]);
        self.first_that_fits(&[
            (CntvctEl0AToEl2, a_to_el2, TrapToEl2),
            (CntvctEl0AToEl1, a_to_el1, TrapToEl1),
            (CntvctEl0B, host && !el0vcten, TrapToEl2),
            (CntvctEl0C, on && !host && ecv && el1tvct, TrapToEl2),
        ])
        .unwrap_or((CntvctEl0, Allowed(())))
    }

    /// EL2 on and EL1TVCT 1. Without ECV here: EL1TVCT 1 without ECV is refused with 5 before it
    /// comes to this.
    fn cntvct_at_el1(&self) -> Ruling<()> {
        let (on, el1tvct) = (self.el2_on(), self.bit(El1tvct));
        self.first_that_fits(&[(CntvctEl1Tvct, on && el1tvct, TrapToEl2)])
            .unwrap_or((CntvctEl1, Allowed(())))
    }

    /// Physical less CNTVOFF, but physical alone for host at EL0 and for E2H 1 at EL2.
    pub(crate) fn cntvct_value(&mut self, call: &Call) -> u64 {
        let (level, physical) = (call.level, call.count);
        let less_cntvoff = self.paper.less_cntvoff(&self.state, physical);
        self.decide(
            call.instruction,
            &[
                (CntvctHost, level == El0 && self.host(), physical),
                (CntvctE2h, level == El2 && self.state.e2h, physical),
                (CntvctLessOffset, self.el2_on(), less_cntvoff),
            ],
            (CntvctLessOffsetEl2Off, less_cntvoff),
        )
    }
}
