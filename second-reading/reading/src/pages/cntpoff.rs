//! Document 02, request 1: CNTPOFF, after Arm's page.

use crate::clause::Clause::*;
use crate::pages::Ruling;
use crate::pages::Way::{Allowed, TrapToEl3, Undefined};
use crate::reading::Reading;
use crate::state::Level::{self, *};
use crate::state::State;

impl Reading<'_> {
    /// There with ECV, else Undefined. Undefined at EL0 and EL1; at EL2 a trap to EL3 if ECVEn is
    /// 0, else itself; itself at EL3.
    pub(crate) fn cntpoff(&self, level: Level) -> Ruling<()> {
        let State { ecv, ecven, .. } = self.state;
        self.first_that_fits(&[
            (CntpoffMissing, !ecv, Undefined),
            (CntpoffEl0, level == El0, Undefined),
            (CntpoffEl1, level == El1, Undefined),
            (CntpoffEl2Ecven, level == El2 && !ecven, TrapToEl3),
            (CntpoffEl2, level == El2, Allowed(())),
        ])
        .unwrap_or((CntpoffEl3, Allowed(())))
    }
}
