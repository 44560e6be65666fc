//! Slips in who may touch the registers of document 02, request 1, and in number 10.

use reading::{
    Answer, AsWritten, Control, Direction, Instruction, Paper, Reading, Record, Register, State,
};

use crate::Slip;

pub(crate) fn slips() -> Vec<Slip> {
    vec![
        Slip::new(
            "CNTKCTL at EL1 trapped to EL2 where CNTPCT is",
            NumberInstead(cntkctl_with_the_counter),
        ),
        Slip::new(
            "CNTKCTL at EL1 Undefined with E2H 1",
            NumberInstead(cntkctl_with_e2h),
        ),
        Slip::new(
            "CNTPOFF at EL2 with ECVEn 0 trapped to EL2",
            NumberInstead(trap_to_el2),
        ),
        Slip::new(
            "CNTPOFF at EL1 with ECVEn 0 trapped to EL3",
            NumberInstead(cntpoff_at_el1),
        ),
        Slip::new(
            "CNTPOFF at EL3 with ECVEn 0 trapped too",
            NumberInstead(cntpoff_at_el3),
        ),
        Slip::new("number 10 answered with Rt 0", Rt0With10),
        Slip::new("a write of CNTPOFF stored although trapped", StoredWith10),
    ]
}

/// An access, the state that it came in, and the number that it gets.
struct Asked {
    state: State,
    register: Register,
    level: u8,
    number: u8,
}

/// Some accesses answered with another number; none of those is done.
struct NumberInstead(fn(&Asked) -> Option<u8>);

impl Paper for NumberInstead {
    fn answer(&self, reading: &mut Reading, record: &Record) -> Answer {
        let state = reading.state;
        let answer = AsWritten.answer(reading, record);
        let Ok(instruction) = Instruction::of(record.access.word) else {
            return answer;
        };
        let asked = Asked {
            state,
            register: instruction.register,
            level: record.access.level,
            number: answer.number,
        };
        match self.0(&asked) {
            Some(number) => {
                reading.state = state;
                Answer::number(number, instruction.rt)
            }
            None => answer,
        }
    }
}

fn cntkctl_with_the_counter(asked: &Asked) -> Option<u8> {
    let state = &asked.state;
    let el1pcten = if state.e2h {
        Control::El1pctenE2h1
    } else {
        Control::El1pctenE2h0
    };
    let trapped = AsWritten.el2_on(state) && !AsWritten.bit(state, el1pcten);
    (asked.is(Register::Cntkctl, 1, 0) && trapped).then_some(3)
}

fn cntkctl_with_e2h(asked: &Asked) -> Option<u8> {
    (asked.is(Register::Cntkctl, 1, 0) && asked.state.e2h).then_some(1)
}

fn trap_to_el2(asked: &Asked) -> Option<u8> {
    (asked.number == 10).then_some(3)
}

fn cntpoff_at_el1(asked: &Asked) -> Option<u8> {
    let trapped = asked.state.ecv && !asked.state.ecven;
    (asked.is(Register::Cntpoff, 1, 1) && trapped).then_some(10)
}

fn cntpoff_at_el3(asked: &Asked) -> Option<u8> {
    (asked.is(Register::Cntpoff, 3, 0) && !asked.state.ecven).then_some(10)
}

impl Asked {
    fn is(&self, register: Register, level: u8, number: u8) -> bool {
        (self.register, self.level, self.number) == (register, level, number)
    }
}

struct Rt0With10;

impl Paper for Rt0With10 {
    fn answer(&self, reading: &mut Reading, record: &Record) -> Answer {
        let answer = AsWritten.answer(reading, record);
        let rt = if answer.number == 10 { 0 } else { answer.rt };
        Answer { rt, ..answer }
    }
}

struct StoredWith10;

impl Paper for StoredWith10 {
    fn answer(&self, reading: &mut Reading, record: &Record) -> Answer {
        let answer = AsWritten.answer(reading, record);
        let written = Instruction::of(record.access.word)
            .is_ok_and(|instruction| instruction.direction == Direction::Msr);
        if answer.number == 10 && written {
            reading.state.cntpoff = record.access.operand;
        }
        answer
    }
}
