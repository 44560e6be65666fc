//! Slips in 'Values', in 'Timer met', in the counts and in what an answer holds.

use reading::{
    Answer, AsWritten, Direction, Instruction, Masked, Paper, Part, Reading, Record, State, Timer,
    TimerName,
};

use crate::Slip;

pub(crate) fn slips() -> Vec<Slip> {
    vec![
        Slip::new("the operand of a TVAL write taken as unsigned", Unsigned),
        Slip::new("a TVAL read cut to 32 bits", TvalLow32),
        Slip::new(
            "only the low 32 bits of a disabled TVAL unknown",
            TvalMaskLow32,
        ),
        Slip::new("all bits of a disabled CTL unknown", CtlMaskWhole),
        Slip::new("the count has to be above CVAL", ReachedStrictly),
        Slip::new("a disabled timer can be met", EnableForgotten),
        Slip::new("IMASK hides ISTATUS", ImaskInStatus),
        Slip::new(
            "ISTATUS judged by the count the access would use",
            StatusByAccessCount,
        ),
        Slip::new("CNTPOFF taken off at EL2 and EL3 too", CntpoffAboveEl1),
        Slip::new(
            "CNTVOFF taken off for CNTHV and CNTHVS too",
            CntvoffForHypTimers,
        ),
        Slip::new("a CTL write leaves IMASK", CtlWriteForgetsImask),
        Slip::new("a CVAL write cut to 32 bits", CvalWriteLow32),
        Slip::new("a write answers what it wrote", WriteAnswersOperand),
        Slip::new("MRS with Rt 31 answers 0", Rt31ReadsZero),
    ]
}

const LOW_32: u64 = 0xFFFF_FFFF;
const ISTATUS: u64 = 1 << 2;

struct Unsigned;

impl Paper for Unsigned {
    fn write_tval(&self, timer: &mut Timer, count: u64, operand: u64) {
        timer.cval = count.wrapping_add(operand & LOW_32);
    }
}

struct TvalLow32;

impl Paper for TvalLow32 {
    fn tval(&self, timer: &Timer, count: u64) -> u64 {
        AsWritten.tval(timer, count) & LOW_32
    }
}

struct TvalMaskLow32;

impl Paper for TvalMaskLow32 {
    fn disabled_tval(&self) -> Masked {
        Masked {
            value: 0,
            mask: LOW_32,
        }
    }
}

struct CtlMaskWhole;

impl Paper for CtlMaskWhole {
    fn disabled_ctl(&self, _timer: &Timer) -> Masked {
        Masked::UNKNOWN
    }
}

struct ReachedStrictly;

impl Paper for ReachedStrictly {
    fn met(&self, timer: &Timer, count: u64) -> bool {
        AsWritten.met(timer, count) && count != timer.cval
    }
}

struct EnableForgotten;

impl Paper for EnableForgotten {
    fn met(&self, timer: &Timer, count: u64) -> bool {
        let enabled = Timer {
            enable: true,
            ..*timer
        };
        AsWritten.met(&enabled, count)
    }
}

struct ImaskInStatus;

impl Paper for ImaskInStatus {
    fn ctl(&self, timer: &Timer, met: bool) -> u64 {
        AsWritten.ctl(timer, met && !timer.imask)
    }
}

struct StatusByAccessCount;

impl Paper for StatusByAccessCount {
    fn answer(&self, reading: &mut Reading, record: &Record) -> Answer {
        let answer = AsWritten.answer(reading, record);
        let status = asks(record, |i| {
            i.direction == Direction::Mrs && i.register.part() == Some(Part::Ctl)
        });
        let known = answer.number == 0 && answer.mask == 0;
        if !(status && known) {
            return answer;
        }
        let [tval, cval] = [0, 2].map(|op2| with_op2(reading, record, op2));
        // Since TVAL is CVAL less that count.
        let count = cval.wrapping_sub(tval);
        let istatus = if count >= cval { ISTATUS } else { 0 };
        Answer {
            value: answer.value & !ISTATUS | istatus,
            ..answer
        }
    }
}

/// What the same access would read of another register of the timer; they differ in op2.
fn with_op2(reading: &Reading, record: &Record, op2: u32) -> u64 {
    let mut other = *record;
    other.access.word = record.access.word & !(7 << 5) | op2 << 5;
    AsWritten.answer(&mut reading.clone(), &other).value
}

struct CntpoffAboveEl1;

impl Paper for CntpoffAboveEl1 {
    fn count_above_el1(&self, state: &State, physical: u64) -> u64 {
        if self.offset_on(state) {
            self.less_cntpoff(state, physical)
        } else {
            physical
        }
    }
}

struct CntvoffForHypTimers;

impl Paper for CntvoffForHypTimers {
    fn count_of_others(&self, state: &State, timer: TimerName, physical: u64) -> u64 {
        match timer {
            TimerName::Cnthv | TimerName::Cnthvs => self.less_cntvoff(state, physical),
            _ => physical,
        }
    }
}

struct CtlWriteForgetsImask;

impl Paper for CtlWriteForgetsImask {
    fn write_ctl(&self, timer: &mut Timer, operand: u64) {
        let imask = timer.imask;
        AsWritten.write_ctl(timer, operand);
        timer.imask = imask;
    }
}

struct CvalWriteLow32;

impl Paper for CvalWriteLow32 {
    fn write_cval(&self, timer: &mut Timer, operand: u64) {
        AsWritten.write_cval(timer, operand & LOW_32);
    }
}

struct WriteAnswersOperand;

impl Paper for WriteAnswersOperand {
    fn answer(&self, reading: &mut Reading, record: &Record) -> Answer {
        let answer = AsWritten.answer(reading, record);
        let write = asks(record, |i| i.direction == Direction::Msr);
        match answer.number {
            0 if write => Answer {
                value: record.access.operand,
                ..answer
            },
            _ => answer,
        }
    }
}

struct Rt31ReadsZero;

impl Paper for Rt31ReadsZero {
    fn answer(&self, reading: &mut Reading, record: &Record) -> Answer {
        let answer = AsWritten.answer(reading, record);
        let to_xzr = asks(record, |i| i.direction == Direction::Mrs && i.rt == 31);
        let value = if to_xzr { 0 } else { answer.value };
        Answer { value, ..answer }
    }
}

fn asks(record: &Record, what: impl Fn(Instruction) -> bool) -> bool {
    Instruction::of(record.access.word).is_ok_and(what)
}
