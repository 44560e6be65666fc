//! Document 01, 'Who may touch what': CNTHP (source document 001).

use crate::clause::Clause::*;
use crate::pages::Ruling;
use crate::pages::Way::{Allowed, Undefined};
use crate::reading::Reading;
use crate::state::Level::{self, *};
use crate::state::TimerName::{self, Cnthp};

impl Reading<'_> {
    /// Undefined at EL0 and EL1, allowed at EL2 and EL3.
    pub(crate) fn cnthp(&self, level: Level) -> Ruling<TimerName> {
        self.first_that_fits(&[
            (CnthpEl0, level == El0, Undefined),
            (CnthpEl1, level == El1, Undefined),
            (CnthpEl2, level == El2, Allowed(Cnthp)),
        ])
        .unwrap_or((CnthpEl3, Allowed(Cnthp)))
    }
}
