//! Accesses by register and level, as the tests ask them.

use reading::{Access, Answer, Direction, Instruction, Reading, Register, State};

/// The Rt of every word that is asked.
pub const RT: u8 = 9;

pub struct Bench {
    pub reading: Reading<'static>,
}

impl Bench {
    pub fn of(state: State) -> Bench {
        Bench {
            reading: Reading::new(state),
        }
    }

    pub fn read(&mut self, register: Register, level: u8, count: u64) -> Answer {
        self.ask(Direction::Mrs, register, level, 0, count)
    }

    pub fn write(&mut self, register: Register, level: u8, operand: u64, count: u64) -> Answer {
        self.ask(Direction::Msr, register, level, operand, count)
    }

    pub fn ask(
        &mut self,
        direction: Direction,
        register: Register,
        level: u8,
        operand: u64,
        count: u64,
    ) -> Answer {
        let instruction = Instruction {
            direction,
            register,
            rt: RT,
        };
        self.reading.access(&Access {
            word: instruction.word(),
            level,
            operand,
            count,
        })
    }
}
