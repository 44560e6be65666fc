//! Document 01, 'Instruction words and register names': the instruction words.

use crate::listed::listed;
use crate::register::Register;

listed! {
    /// Whether the register is read or written.
    pub enum Direction {
        Mrs,
        Msr,
    }
}

/// What an instruction word of the table asks.
#[derive(Clone, Copy, Debug, PartialEq, Eq)]
pub struct Instruction {
    pub direction: Direction,
    pub register: Register,
    pub rt: u8,
}

/// Why a word asks nothing of the table.
#[derive(Clone, Copy, Debug, PartialEq, Eq)]
pub enum Stranger {
    NotMrsOrMsr,
    NotInTheTable,
}

/// Bits 31..22 with bit 20, which every MRS and MSR (register) has.
const MRS_MSR_MASK: u32 = 0xFFD0_0000;
const MRS_MSR: u32 = 0xD510_0000;
const READ: u32 = 1 << 21;
const OP0_IS_3: u32 = 1 << 19;
const CRN_14: u32 = 14 << 12;

impl Instruction {
    pub fn of(word: u32) -> Result<Instruction, Stranger> {
        if word & MRS_MSR_MASK != MRS_MSR {
            return Err(Stranger::NotMrsOrMsr);
        }
        let direction = if word & READ != 0 {
            Direction::Mrs
        } else {
            Direction::Msr
        };
        let rt = (word & 31) as u8;
        Register::all()
            .map(|register| Instruction {
                direction,
                register,
                rt,
            })
            .find(|instruction| instruction.word() == word)
            .ok_or(Stranger::NotInTheTable)
    }

    pub fn word(self) -> u32 {
        let (op1, crm, op2) = self.register.encoding();
        let read = match self.direction {
            Direction::Mrs => READ,
            Direction::Msr => 0,
        };
        let name = OP0_IS_3 | op1 << 16 | CRN_14 | crm << 8 | op2 << 5;
        MRS_MSR | read | name | u32::from(self.rt & 31)
    }
}

#[cfg(test)]
mod tests {
    use super::*;

    #[test]
    fn every_word_of_the_table_is_taken_back_to_its_name() {
        for register in Register::all() {
            for direction in Direction::ALL {
                for rt in 0..32 {
                    let instruction = Instruction {
                        direction,
                        register,
                        rt,
                    };
                    assert_eq!(Instruction::of(instruction.word()), Ok(instruction));
                }
            }
        }
    }

    #[test]
    fn the_bench_words_have_their_names() {
        let named = |word| Instruction::of(word).map(|i| (i.direction, i.register.name(), i.rt));
        let asks = |direction, name: &str, rt| Ok((direction, name.to_string(), rt));
        assert_eq!(named(0xD53B_E040), asks(Direction::Mrs, "CNTVCT_EL0", 0));
        assert_eq!(
            named(0xD51B_E31F),
            asks(Direction::Msr, "CNTV_TVAL_EL0", 31)
        );
        assert_eq!(
            named(0xD53C_E400),
            asks(Direction::Mrs, "CNTHVS_TVAL_EL2", 0)
        );
        assert_eq!(named(0xD53B_E000), Err(Stranger::NotInTheTable));
        assert_eq!(named(0xD50B_E040), Err(Stranger::NotMrsOrMsr));
        assert_eq!(named(0x553B_E040), Err(Stranger::NotMrsOrMsr));
    }
}
