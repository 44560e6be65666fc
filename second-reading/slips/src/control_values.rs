//! Slips in what CNTKCTL, CNTHCTL and CNTPOFF give and take.

use reading::{Answer, AsWritten, Paper, Reading, Record, State};

use crate::Slip;

pub(crate) fn slips() -> Vec<Slip> {
    vec![
        Slip::new("a control write's upper 32 bits seen", UpperHalfSeen),
        Slip::new(
            "a control write leaves reserved bits as they were",
            ReservedLeft,
        ),
        Slip::new("a control write clears no bit", OnlySet),
        Slip::new("a control read cut to the stored bits", ReadCut),
        Slip::new("a control read taken as signed", ReadSigned),
        Slip::new("a CNTHCTL write moves CNTKCTL too", CntkctlMovesToo),
        Slip::new("a CNTKCTL write moves CNTHCTL too", CnthctlMovesToo),
        Slip::new("a CNTKCTL write at EL1 lost", LostAtEl1),
        Slip::new("a CNTPOFF write cut to 32 bits", CntpoffWriteLow32),
        Slip::new("a CNTPOFF read cut to 32 bits", CntpoffReadLow32),
        Slip::new("CNTPOFF read as 0 with offset not on", CntpoffByOffset),
    ]
}

const LOW_32: u64 = 0xFFFF_FFFF;

struct UpperHalfSeen;

impl Paper for UpperHalfSeen {
    fn control_written(&self, held: u32, stored: u32, operand: u64) -> u32 {
        AsWritten.control_written(held, stored, operand | operand >> 32)
    }
}

struct ReservedLeft;

impl Paper for ReservedLeft {
    fn control_written(&self, held: u32, stored: u32, operand: u64) -> u32 {
        AsWritten.control_written(held, stored, operand) | held & !stored
    }
}

struct OnlySet;

impl Paper for OnlySet {
    fn control_written(&self, held: u32, stored: u32, operand: u64) -> u32 {
        AsWritten.control_written(held, stored, operand) | held & stored
    }
}

struct ReadCut;

impl Paper for ReadCut {
    fn control_read(&self, held: u32, stored: u32) -> u64 {
        AsWritten.control_read(held & stored, stored)
    }
}

struct ReadSigned;

impl Paper for ReadSigned {
    fn control_read(&self, held: u32, _stored: u32) -> u64 {
        i64::from(held as i32) as u64
    }
}

struct CntkctlMovesToo;

impl Paper for CntkctlMovesToo {
    fn answer(&self, reading: &mut Reading, record: &Record) -> Answer {
        let before = reading.state;
        let answer = AsWritten.answer(reading, record);
        if reading.state.cnthctl != before.cnthctl {
            reading.state.cntkctl = reading.state.cnthctl;
        }
        answer
    }
}

struct CnthctlMovesToo;

impl Paper for CnthctlMovesToo {
    fn answer(&self, reading: &mut Reading, record: &Record) -> Answer {
        let before = reading.state;
        let answer = AsWritten.answer(reading, record);
        if reading.state.cntkctl != before.cntkctl {
            reading.state.cnthctl = reading.state.cntkctl;
        }
        answer
    }
}

struct LostAtEl1;

impl Paper for LostAtEl1 {
    fn answer(&self, reading: &mut Reading, record: &Record) -> Answer {
        let before = reading.state;
        let answer = AsWritten.answer(reading, record);
        if record.access.level == 1 {
            reading.state.cntkctl = before.cntkctl;
        }
        answer
    }
}

struct CntpoffWriteLow32;

impl Paper for CntpoffWriteLow32 {
    fn write_cntpoff(&self, state: &mut State, operand: u64) {
        AsWritten.write_cntpoff(state, operand & LOW_32);
    }
}

struct CntpoffReadLow32;

impl Paper for CntpoffReadLow32 {
    fn cntpoff(&self, state: &State) -> u64 {
        AsWritten.cntpoff(state) & LOW_32
    }
}

struct CntpoffByOffset;

impl Paper for CntpoffByOffset {
    fn cntpoff(&self, state: &State) -> u64 {
        if self.offset_on(state) {
            AsWritten.cntpoff(state)
        } else {
            0
        }
    }
}
