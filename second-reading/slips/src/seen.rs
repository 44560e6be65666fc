//! The slips that document 01 names under 'Slips we have seen'.

use reading::{AsWritten, Control, Paper, State, Timer};

use crate::Slip;

pub(crate) fn slips() -> Vec<Slip> {
    vec![
        Slip::new(
            "count and CVAL compared as signed numbers",
            SignedComparison,
        ),
        Slip::new(
            "an EL0 trap sent to EL1 while EL2 is on and TGE is 1",
            TgeForgotten,
        ),
        Slip::new("EL1PTEN looked for in bit 1 when E2H is 1", El1ptenInBit1),
        Slip::new("CNTVOFF dropped because EL2 is not on", DroppedWithEl2Off),
        Slip::new(
            "the whole operand of a TVAL write taken as signed",
            WholeOperandTaken,
        ),
    ]
}

struct SignedComparison;

impl Paper for SignedComparison {
    fn met(&self, timer: &Timer, count: u64) -> bool {
        timer.enable && count as i64 >= timer.cval as i64
    }
}

struct TgeForgotten;

impl Paper for TgeForgotten {
    fn el0_trap_goes_to_el2(&self, _state: &State) -> bool {
        false
    }
}

struct El1ptenInBit1;

impl Paper for El1ptenInBit1 {
    fn place(&self, control: Control) -> u32 {
        match control {
            Control::El1pten => 1,
            other => AsWritten.place(other),
        }
    }
}

struct DroppedWithEl2Off;

impl Paper for DroppedWithEl2Off {
    fn less_cntvoff(&self, state: &State, physical: u64) -> u64 {
        if self.el2_on(state) {
            AsWritten.less_cntvoff(state, physical)
        } else {
            physical
        }
    }
}

struct WholeOperandTaken;

impl Paper for WholeOperandTaken {
    fn write_tval(&self, timer: &mut Timer, count: u64, operand: u64) {
        timer.cval = count.wrapping_add(operand);
    }
}
