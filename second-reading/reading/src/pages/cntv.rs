//! Document 01, 'Who may touch what': the CNTV family (source documents 000 and, for EL1, 002).

use crate::clause::Clause::*;
use crate::control::Control::*;
use crate::pages::Ruling;
use crate::pages::Way::{Allowed, TrapToEl1, TrapToEl2};
use crate::reading::Reading;
use crate::state::Level::{self, *};
use crate::state::State;
use crate::state::TimerName::{self, *};

impl Reading<'_> {
    pub(crate) fn cntv(&self, level: Level) -> Ruling<TimerName> {
        match level {
            El0 => self.cntv_at_el0(),
            El1 => self.cntv_at_el1(),
            El2 => self.cntv_at_el2(),
            El3 => (CntvEl3, Allowed(Cntv)),
        }
    }

    fn cntv_at_el0(&self) -> Ruling<TimerName> {
        let State { sel2, ecv, .. } = self.state;
        let (on, host, secure) = (self.el2_on(), self.host(), self.secure(El0));
        let (a_to_el2, a_to_el1) = self.letter_a(CntkctlEl0vten);
        let [el0vten, el1tvt] = self.bits([CnthctlEl0vten, El1tvt]);
        self.first_that_fits(&[
            (CntvEl0AToEl2, a_to_el2, TrapToEl2),
            (CntvEl0AToEl1, a_to_el1, TrapToEl1),
            (CntvEl0B, host && !el0vten, TrapToEl2),
            (CntvEl0C, on && !host && ecv && el1tvt, TrapToEl2),
            (CntvEl0D, host && secure && sel2, Allowed(Cnthvs)),
            (CntvEl0E, host && !secure, Allowed(Cnthv)),
        ])
        .unwrap_or((CntvEl0F, Allowed(Cntv)))
    }

    fn cntv_at_el1(&self) -> Ruling<TimerName> {
        let (on, ecv, el1tvt) = (self.el2_on(), self.state.ecv, self.bit(El1tvt));
        self.first_that_fits(&[(CntvEl1Tvt, on && ecv && el1tvt, TrapToEl2)])
            .unwrap_or((CntvEl1, Allowed(Cntv)))
    }

    fn cntv_at_el2(&self) -> Ruling<TimerName> {
        let State { e2h, sel2, .. } = self.state;
        let secure = self.secure(El2);
        self.first_that_fits(&[
            (CntvEl2Secure, e2h && secure && sel2, Allowed(Cnthvs)),
            (CntvEl2NotSecure, e2h && !secure, Allowed(Cnthv)),
        ])
        .unwrap_or((CntvEl2, Allowed(Cntv)))
    }
}
