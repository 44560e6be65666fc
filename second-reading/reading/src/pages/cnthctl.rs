//! Document 02, request 1: CNTHCTL, after Arm's page.

use crate::clause::Clause::*;
use crate::pages::Ruling;
use crate::pages::Way::{Allowed, Undefined};
use crate::reading::Reading;
use crate::state::ControlName::{self, Cnthctl};
use crate::state::Level::{self, *};

impl Reading<'_> {
    /// Undefined at EL0 and EL1, itself at EL2 and EL3.
    pub(crate) fn cnthctl(&self, level: Level) -> Ruling<ControlName> {
        self.first_that_fits(&[
            (CnthctlEl0, level == El0, Undefined),
            (CnthctlEl1, level == El1, Undefined),
            (CnthctlEl2, level == El2, Allowed(Cnthctl)),
        ])
        .unwrap_or((CnthctlEl3, Allowed(Cnthctl)))
    }
}
