//! Document 02, request 1: CNTKCTL, after Arm's page.

use crate::clause::Clause::*;
use crate::pages::Ruling;
use crate::pages::Way::{Allowed, Undefined};
use crate::reading::Reading;
use crate::state::ControlName::{self, *};
use crate::state::Level::{self, *};

impl Reading<'_> {
    /// Undefined at EL0; itself at EL1, never trapped; CNTHCTL at EL2 with E2H 1, else itself;
    /// itself at EL3.
    pub(crate) fn cntkctl(&self, level: Level) -> Ruling<ControlName> {
        let e2h = self.state.e2h;
        self.first_that_fits(&[
            (CntkctlEl0, level == El0, Undefined),
            (CntkctlEl1, level == El1, Allowed(Cntkctl)),
            (CntkctlEl2E2h, level == El2 && e2h, Allowed(Cnthctl)),
            (CntkctlEl2, level == El2, Allowed(Cntkctl)),
        ])
        .unwrap_or((CntkctlEl3, Allowed(Cntkctl)))
    }
}
