//! Document 01, 'Who may touch what': CNTHVS (source document 000).

use crate::clause::Clause::*;
use crate::pages::Ruling;
use crate::pages::Way::{Allowed, Undefined};
use crate::reading::Reading;
use crate::state::Level::{self, *};
use crate::state::State;
use crate::state::TimerName::{self, Cnthvs};

impl Reading<'_> {
    /// Undefined unless VHE and SEL2 are both there, at EL0 and EL1, at EL2 when not secure, at EL3
    /// when EEL2 is 0; else allowed.
    pub(crate) fn cnthvs(&self, level: Level) -> Ruling<TimerName> {
        let State {
            vhe, sel2, eel2, ..
        } = self.state;
        let secure = self.secure(level);
        self.first_that_fits(&[
            (CnthvsMissing, !(vhe && sel2), Undefined),
            (CnthvsEl0, level == El0, Undefined),
            (CnthvsEl1, level == El1, Undefined),
            (CnthvsEl2NotSecure, level == El2 && !secure, Undefined),
            (CnthvsEl3Eel2, level == El3 && !eel2, Undefined),
            (CnthvsEl2, level == El2, Allowed(Cnthvs)),
        ])
        .unwrap_or((CnthvsEl3, Allowed(Cnthvs)))
    }
}
