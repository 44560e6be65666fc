//! Document 01, 'Who may touch what': the CNTP family (source document 001; CTL and CVAL share the
//! gates).

use crate::clause::Clause::*;
use crate::control::Control::*;
use crate::pages::Ruling;
use crate::pages::Way::{Allowed, TrapToEl1, TrapToEl2};
use crate::reading::Reading;
use crate::state::Level::{self, *};
use crate::state::State;
use crate::state::TimerName::{self, *};

impl Reading<'_> {
    pub(crate) fn cntp(&self, level: Level) -> Ruling<TimerName> {
        match level {
            El0 => self.cntp_at_el0(),
            El1 => self.cntp_at_el1(),
            El2 => self.cntp_at_el2(),
            El3 => (CntpEl3, Allowed(Cntp)),
        }
    }

    fn cntp_at_el0(&self) -> Ruling<TimerName> {
        let State { e2h, tge, sel2, .. } = self.state;
        let (on, host, secure) = (self.el2_on(), self.host(), self.secure(El0));
        let (a_to_el2, a_to_el1) = self.letter_a(CntkctlEl0pten);
        let [el1pcen, el1pten, el0pten] = self.bits([El1pcen, El1pten, CnthctlEl0pten]);
        self.first_that_fits(&[
            (CntpEl0AToEl2, a_to_el2, TrapToEl2),
            (CntpEl0AToEl1, a_to_el1, TrapToEl1),
            (CntpEl0B, on && !e2h && !el1pcen, TrapToEl2),
            (CntpEl0C, on && e2h && !tge && !el1pten, TrapToEl2),
            (CntpEl0D, host && !el0pten, TrapToEl2),
            (CntpEl0E, host && secure && sel2, Allowed(Cnthps)),
            (CntpEl0F, host && !secure, Allowed(Cnthp)),
        ])
        .unwrap_or((CntpEl0G, Allowed(Cntp)))
    }

    fn cntp_at_el1(&self) -> Ruling<TimerName> {
        let (on, e2h) = (self.el2_on(), self.state.e2h);
        let [el1pcen, el1pten] = self.bits([El1pcen, El1pten]);
        self.first_that_fits(&[
            (CntpEl1Pcen, on && !e2h && !el1pcen, TrapToEl2),
            (CntpEl1Pten, on && e2h && !el1pten, TrapToEl2),
        ])
        .unwrap_or((CntpEl1, Allowed(Cntp)))
    }

    fn cntp_at_el2(&self) -> Ruling<TimerName> {
        let State { e2h, sel2, .. } = self.state;
        let secure = self.secure(El2);
        self.first_that_fits(&[
            (CntpEl2Secure, e2h && secure && sel2, Allowed(Cnthps)),
            (CntpEl2NotSecure, e2h && !secure, Allowed(Cnthp)),
        ])
        .unwrap_or((CntpEl2, Allowed(Cntp)))
    }
}
