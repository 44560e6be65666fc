//! Slips in the names of document 02, request 1, and in the register that CNTKCTL's name reaches.

use reading::{
    Answer, AsWritten, ControlName, Direction, Instruction, Layout, Level, Paper, Reading, Record,
    Register, State,
};

use crate::Slip;

pub(crate) fn slips() -> Vec<Slip> {
    vec![
        Slip::new(
            "CNTKCTL at EL1 with E2H 1 redirected too",
            RedirectedAt(Level::El1),
        ),
        Slip::new(
            "CNTKCTL at EL3 with E2H 1 redirected too",
            RedirectedAt(Level::El3),
        ),
        Slip::new("CNTKCTL redirected for the host alone", ForHostAlone),
        Slip::new("a redirected write keeps CNTKCTL's bits", BitsOfTheName),
        Slip::new(
            "CNTHCTL's bits picked by E2H the wrong way",
            BitsTheWrongWay,
        ),
        Slip::new(
            "CNTKCTL_EL1 and CNTHCTL_EL2 taken for one another",
            Exchanged(Register::Cntkctl, Register::Cnthctl),
        ),
        Slip::new(
            "CNTVOFF_EL2 and CNTPOFF_EL2 taken for one another",
            Exchanged(Register::Cntvoff, Register::Cntpoff),
        ),
        Slip::new("CNTKCTL_EL12 taken for CNTKCTL_EL1", El12Served),
    ]
}

struct RedirectedAt(Level);

impl Paper for RedirectedAt {
    fn control_reached(
        &self,
        state: &State,
        _asked: Register,
        level: Level,
        named: ControlName,
    ) -> ControlName {
        if state.e2h && level == self.0 {
            ControlName::Cnthctl
        } else {
            named
        }
    }
}

struct ForHostAlone;

impl Paper for ForHostAlone {
    fn control_reached(
        &self,
        state: &State,
        asked: Register,
        _level: Level,
        named: ControlName,
    ) -> ControlName {
        if asked == Register::Cntkctl && !self.host(state) {
            ControlName::Cntkctl
        } else {
            named
        }
    }
}

struct BitsOfTheName;

impl Paper for BitsOfTheName {
    fn layout(&self, state: &State, asked: Register, reached: ControlName) -> Layout {
        match asked {
            Register::Cntkctl => Layout::Cntkctl,
            _ => AsWritten.layout(state, asked, reached),
        }
    }
}

struct BitsTheWrongWay;

impl Paper for BitsTheWrongWay {
    fn layout(&self, state: &State, asked: Register, reached: ControlName) -> Layout {
        let turned = State {
            e2h: !state.e2h,
            ..*state
        };
        AsWritten.layout(&turned, asked, reached)
    }
}

struct Exchanged(Register, Register);

impl Paper for Exchanged {
    fn answer(&self, reading: &mut Reading, record: &Record) -> Answer {
        let exchanged = |instruction: Instruction| {
            let register = match instruction.register {
                register if register == self.0 => self.1,
                register if register == self.1 => self.0,
                other => other,
            };
            Instruction {
                register,
                ..instruction
            }
        };
        let word = record.access.word;
        let word = Instruction::of(word).map_or(word, |i| exchanged(i).word());
        AsWritten.answer(reading, &with_word(record, word))
    }
}

struct El12Served;

impl Paper for El12Served {
    fn answer(&self, reading: &mut Reading, record: &Record) -> Answer {
        let word = record.access.word;
        let mut directions = Direction::ALL.into_iter();
        let served = match directions.find(|&direction| el12(direction) == word & !31) {
            Some(direction) => cntkctl(direction) | word & 31,
            None => word,
        };
        AsWritten.answer(reading, &with_word(record, served))
    }
}

/// The word of CNTKCTL_EL1 with Rt 0.
fn cntkctl(direction: Direction) -> u32 {
    Instruction {
        direction,
        register: Register::Cntkctl,
        rt: 0,
    }
    .word()
}

/// The word of CNTKCTL_EL12, which has op1 5 where the other has 0.
fn el12(direction: Direction) -> u32 {
    cntkctl(direction) | 5 << 16
}

fn with_word(record: &Record, word: u32) -> Record {
    let mut other = *record;
    other.access.word = word;
    other
}
