//! Document 01, 'Values': what the registers of a timer give and take.

use crate::access::Call;
use crate::clause::Clause::{self, *};
use crate::reading::Reading;
use crate::register::Part;
use crate::state::TimerName;

/// A value with the mask of its unknown bits, which it has as 0.
#[derive(Clone, Copy, Debug, Default, PartialEq, Eq)]
pub struct Masked {
    pub value: u64,
    pub mask: u64,
}

impl Masked {
    pub const UNKNOWN: Masked = Masked {
        value: 0,
        mask: u64::MAX,
    };

    pub(crate) fn known(value: u64) -> Masked {
        Masked { value, mask: 0 }
    }
}

/// The bits of a CTL.
pub(crate) const ENABLE: u64 = 1;
pub(crate) const IMASK: u64 = 1 << 1;
pub(crate) const ISTATUS: u64 = 1 << 2;

impl Reading<'_> {
    pub(crate) fn read_timer(&mut self, call: &Call, part: Part, name: TimerName) -> Masked {
        match part {
            Part::Tval => self.read_tval(call, name),
            Part::Ctl => self.read_ctl(call, name),
            Part::Cval => {
                self.note(CvalRead, name);
                Masked::known(self.state.timer(name).cval)
            }
        }
    }

    fn read_tval(&mut self, call: &Call, name: TimerName) -> Masked {
        let timer = *self.state.timer(name);
        if self.fits(name, TvalUnknown, !timer.enable) {
            return self.paper.disabled_tval();
        }
        self.note(TvalRead, name);
        let count = self.count_used(call, name);
        Masked::known(self.paper.tval(&timer, count))
    }

    fn read_ctl(&mut self, call: &Call, name: TimerName) -> Masked {
        let timer = *self.state.timer(name);
        if self.fits(name, CtlUnknown, !timer.enable) {
            return self.paper.disabled_ctl(&timer);
        }
        let count = self.count_for_met(name, call.count);
        self.note_edge(name, count, CtlAtCval, CtlBelowCval);
        let met = (CtlMet, self.paper.met(&timer, count), true);
        let met = self.decide(name, &[met], (CtlNotMet, false));
        Masked::known(self.paper.ctl(&timer, met))
    }

    pub(crate) fn write_timer(&mut self, call: &Call, part: Part, name: TimerName) {
        let operand = self.operand(call);
        let paper = self.paper;
        match part {
            Part::Tval => {
                self.note(TvalWritten, name);
                let count = self.count_used(call, name);
                paper.write_tval(self.state.timer_mut(name), count, operand);
            }
            Part::Ctl => {
                self.note(CtlWritten, name);
                paper.write_ctl(self.state.timer_mut(name), operand);
            }
            Part::Cval => {
                self.note(CvalWritten, name);
                paper.write_cval(self.state.timer_mut(name), operand);
            }
        }
    }

    /// MSR with Rt 31 writes 0, whatever operand is lent.
    pub(crate) fn operand(&mut self, call: &Call) -> u64 {
        let instruction = call.instruction;
        if self.fits(instruction, Rt31Written, instruction.rt == 31) {
            0
        } else {
            call.operand
        }
    }

    /// Notes a count on either side of the moment an enabled timer is met.
    pub(crate) fn note_edge(&mut self, name: TimerName, count: u64, at: Clause, below: Clause) {
        let timer = *self.state.timer(name);
        if timer.enable && count == timer.cval {
            self.note(at, name);
        } else if timer.enable && timer.cval != 0 && count == timer.cval - 1 {
            self.note(below, name);
        }
    }
}
