//! Document 01, 'Who may touch what': CNTVOFF (source document 003).

use crate::clause::Clause::*;
use crate::pages::Ruling;
use crate::pages::Way::{Allowed, Undefined};
use crate::reading::Reading;
use crate::state::Level::{self, *};

impl Reading<'_> {
    /// Undefined at EL0 and EL1, allowed at EL2 and EL3.
    pub(crate) fn cntvoff(&self, level: Level) -> Ruling<()> {
        self.first_that_fits(&[
            (CntvoffEl0, level == El0, Undefined),
            (CntvoffEl1, level == El1, Undefined),
            (CntvoffEl2, level == El2, Allowed(())),
        ])
        .unwrap_or((CntvoffEl3, Allowed(())))
    }
}
