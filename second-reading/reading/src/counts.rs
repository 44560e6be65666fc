//! Document 01, 'Who may touch what' and 'Timer met': the count that an access to a timer uses, and
//! the one that the timer is met by.

use crate::access::Call;
use crate::clause::Clause::*;
use crate::reading::Reading;
use crate::state::Level::*;
use crate::state::TimerName::{self, *};

impl Reading<'_> {
    /// The count that a TVAL access uses.
    pub(crate) fn count_used(&mut self, call: &Call, timer: TimerName) -> u64 {
        match timer {
            Cntp => self.count_for_cntp(call),
            Cntv => self.count_for_cntv(call),
            Cnthp | Cnthv | Cnthps | Cnthvs => {
                self.note(CountPhysical, timer);
                self.paper.count_of_others(&self.state, timer, call.count)
            }
        }
    }

    /// The physical count; at EL0 and EL1, for timer CNTP with offset on, less CNTPOFF.
    fn count_for_cntp(&mut self, call: &Call) -> u64 {
        let (level, physical, on) = (call.level, call.count, self.offset_on());
        let less_cntpoff = self.paper.less_cntpoff(&self.state, physical);
        let above = self.paper.count_above_el1(&self.state, physical);
        self.decide(
            call.instruction,
            &[
                (CountCntpLessOffsetEl0, level == El0 && on, less_cntpoff),
                (CountCntpLessOffsetEl1, level == El1 && on, less_cntpoff),
                (CountCntpEl0, level == El0, physical),
                (CountCntpEl1, level == El1, physical),
                (CountCntpEl2, level == El2, above),
            ],
            (CountCntpEl3, above),
        )
    }

    /// Physical less CNTVOFF, also where EL2 exists but is not on.
    fn count_for_cntv(&mut self, call: &Call) -> u64 {
        let less_cntvoff = self.paper.less_cntvoff(&self.state, call.count);
        self.decide(
            call.instruction,
            &[(CountCntv, self.el2_on(), less_cntvoff)],
            (CountCntvEl2Off, less_cntvoff),
        )
    }

    /// The count for ISTATUS and the line, whatever the level: CNTV, physical less CNTVOFF; CNTP,
    /// physical, less CNTPOFF with offset on (the house rule); others, physical.
    pub(crate) fn count_for_met(&mut self, timer: TimerName, physical: u64) -> u64 {
        match timer {
            Cntv => {
                self.note(MetCountCntv, timer);
                self.paper.less_cntvoff(&self.state, physical)
            }
            Cntp => {
                let less_cntpoff = self.paper.less_cntpoff(&self.state, physical);
                let house_rule = (MetCountHouseRule, self.offset_on(), less_cntpoff);
                self.decide(timer, &[house_rule], (MetCountCntp, physical))
            }
            Cnthp | Cnthv | Cnthps | Cnthvs => {
                self.note(MetCountPhysical, timer);
                self.paper.count_of_others(&self.state, timer, physical)
            }
        }
    }
}
