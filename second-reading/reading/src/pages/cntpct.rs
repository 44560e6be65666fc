//! Document 01, 'Who may touch what': CNTPCT, and CNTPCTSS, which gives the same.

use crate::access::Call;
use crate::clause::Clause::*;
use crate::control::Control::*;
use crate::pages::Ruling;
use crate::pages::Way::{Allowed, TrapToEl1, TrapToEl2};
use crate::reading::Reading;
use crate::state::Level::{self, *};
use crate::state::State;

impl Reading<'_> {
    pub(crate) fn cntpct(&self, level: Level) -> Ruling<()> {
        match level {
            El0 => self.cntpct_at_el0(),
            El1 => self.cntpct_at_el1(),
            El2 => (CntpctEl2, Allowed(())),
            El3 => (CntpctEl3, Allowed(())),
        }
    }

    /// As CNTP (a) to (d) with EL0PCTEN and EL1PCTEN in place of the timer bits.
    fn cntpct_at_el0(&self) -> Ruling<()> {
        let State { e2h, tge, .. } = self.state;
        let (on, host) = (self.el2_on(), self.host());
        let (a_to_el2, a_to_el1) = self.letter_a(CntkctlEl0pcten);
        let (el1pcten, el0pcten) = (self.el1pcten(), self.bit(CnthctlEl0pcten));
        self.first_that_fits(&[
            (CntpctEl0AToEl2, a_to_el2, TrapToEl2),
            (CntpctEl0AToEl1, a_to_el1, TrapToEl1),
            (CntpctEl0B, on && !e2h && !el1pcten, TrapToEl2),
            (CntpctEl0C, on && e2h && !tge && !el1pcten, TrapToEl2),
            (CntpctEl0D, host && !el0pcten, TrapToEl2),
        ])
        .unwrap_or((CntpctEl0, Allowed(())))
    }

    /// Likewise with EL1PCTEN.
    fn cntpct_at_el1(&self) -> Ruling<()> {
        let (on, e2h, el1pcten) = (self.el2_on(), self.state.e2h, self.el1pcten());
        self.first_that_fits(&[
            (CntpctEl1E2h0, on && !e2h && !el1pcten, TrapToEl2),
            (CntpctEl1E2h1, on && e2h && !el1pcten, TrapToEl2),
        ])
        .unwrap_or((CntpctEl1, Allowed(())))
    }

    /// EL1PCTEN stands in both layouts of CNTHCTL, and E2H picks one.
    fn el1pcten(&self) -> bool {
        self.bit(if self.state.e2h {
            El1pctenE2h1
        } else {
            El1pctenE2h0
        })
    }

    /// Physical, less CNTPOFF at EL0 and EL1 with offset on. EL2, EL3: physical.
    pub(crate) fn cntpct_value(&mut self, call: &Call) -> u64 {
        let (level, physical, on) = (call.level, call.count, self.offset_on());
        let less_cntpoff = self.paper.less_cntpoff(&self.state, physical);
        let above = self.paper.count_above_el1(&self.state, physical);
        self.decide(
            call.instruction,
            &[
                (CntpctLessOffsetEl0, level == El0 && on, less_cntpoff),
                (CntpctLessOffsetEl1, level == El1 && on, less_cntpoff),
                (CntpctPhysicalEl0, level == El0, physical),
                (CntpctPhysicalEl1, level == El1, physical),
            ],
            (CntpctPhysicalAbove, above),
        )
    }
}
