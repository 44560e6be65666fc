//! Document 01, 'Values', and document 02, request 1: CNTVOFF and CNTPOFF, read and written whole.

use crate::access::Call;
use crate::clause::Clause::*;
use crate::reading::Reading;
use crate::tally::Cell;
use crate::values::Masked;

impl Reading<'_> {
    pub(crate) fn read_cntvoff(&mut self) -> Masked {
        self.note(CntvoffRead, Cell::Whole);
        Masked::known(self.state.cntvoff)
    }

    pub(crate) fn write_cntvoff(&mut self, call: &Call) {
        self.note(CntvoffWritten, Cell::Whole);
        self.state.cntvoff = self.operand(call);
    }

    pub(crate) fn read_cntpoff(&mut self) -> Masked {
        self.note(CntpoffRead, Cell::Whole);
        Masked::known(self.paper.cntpoff(&self.state))
    }

    pub(crate) fn write_cntpoff(&mut self, call: &Call) {
        self.note(CntpoffWritten, Cell::Whole);
        let operand = self.operand(call);
        self.paper.write_cntpoff(&mut self.state, operand);
    }
}
