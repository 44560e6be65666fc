//! Document 02, request 1: what CNTKCTL and CNTHCTL give and take.

use crate::access::Call;
use crate::clause::Clause::{self, *};
use crate::fields::Layout;
use crate::reading::Reading;
use crate::state::ControlName;
use crate::values::Masked;

impl Reading<'_> {
    pub(crate) fn read_control(&mut self, call: &Call, name: ControlName) -> Masked {
        self.note(read(name), call.instruction);
        let (_, stored) = self.layout(call, name);
        let held = self.state.control(name);
        if held & !stored != 0 {
            self.note(ReservedRead, call.instruction);
        }
        Masked::known(self.paper.control_read(held, stored))
    }

    pub(crate) fn write_control(&mut self, call: &Call, name: ControlName) {
        let operand = self.operand(call);
        let (layout, stored) = self.layout(call, name);
        self.note(written(layout, self.state.ecv), call.instruction);
        self.note_dropped(call, operand, stored);
        let held = self.state.control(name);
        *self.state.control_mut(name) = self.paper.control_written(held, stored, operand);
    }

    /// The layout that the access meets, and the bits that a write stores there.
    fn layout(&self, call: &Call, name: ControlName) -> (Layout, u32) {
        let asked = call.instruction.register;
        let layout = self.paper.layout(&self.state, asked, name);
        (layout, self.paper.stored_bits(layout, self.state.ecv))
    }

    /// Notes an operand with more than the register stores.
    fn note_dropped(&mut self, call: &Call, operand: u64, stored: u32) {
        if operand as u32 & !stored != 0 {
            self.note(ReservedWritten, call.instruction);
        }
        if operand >> 32 != 0 {
            self.note(UpperHalfWritten, call.instruction);
        }
    }
}

fn read(name: ControlName) -> Clause {
    match name {
        ControlName::Cntkctl => CntkctlRead,
        ControlName::Cnthctl => CnthctlRead,
    }
}

fn written(layout: Layout, ecv: bool) -> Clause {
    match (layout, ecv) {
        (Layout::Cntkctl, false) => CntkctlWritten,
        (Layout::Cntkctl, true) => CntkctlWrittenEcv,
        (Layout::CnthctlE2h0, false) => CnthctlWrittenE2h0,
        (Layout::CnthctlE2h0, true) => CnthctlWrittenE2h0Ecv,
        (Layout::CnthctlE2h1, false) => CnthctlWrittenE2h1,
        (Layout::CnthctlE2h1, true) => CnthctlWrittenE2h1Ecv,
    }
}
