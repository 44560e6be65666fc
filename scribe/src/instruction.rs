//! Instruction words that access a timer register.

use crate::register::Register;

/// Whether the register is read or written.
#[derive(Clone, Copy, Debug, PartialEq, Eq)]
pub(crate) enum Direction {
    Mrs,
    Msr,
}

/// What an instruction word asks of a timer register.
#[derive(Clone, Copy, Debug, PartialEq, Eq)]
pub(crate) struct Instruction {
    pub(crate) direction: Direction,
    pub(crate) register: Register,
    pub(crate) rt: u8,
}

/// Rt of all ones is XZR.
pub(crate) const XZR: u8 = 31;

/// What each of them has: MRS or MSR (register), op0 3 and CRn 14.
const ACCESS: u32 = 0xD518_E000;
const ACCESS_BITS: u32 = 0xFFD8_F000;
const READ: u32 = 1 << 21;

impl Instruction {
    /// What the word asks, if it asks it of a timer register.
    pub(crate) fn of(word: u32) -> Option<Instruction> {
        let encoding = (word >> 16 & 7, word >> 8 & 15, word >> 5 & 7);
        let register = Register::encoded(encoding)?;
        let direction = match word & READ {
            0 => Direction::Msr,
            _ => Direction::Mrs,
        };
        (word & ACCESS_BITS == ACCESS).then_some(Instruction {
            direction,
            register,
            rt: rt_of(word),
        })
    }

    pub(crate) fn word(self) -> u32 {
        let (op1, crm, op2) = self.register.encoding;
        let read = match self.direction {
            Direction::Mrs => READ,
            Direction::Msr => 0,
        };
        ACCESS | read | op1 << 16 | crm << 8 | op2 << 5 | u32::from(self.rt)
    }
}

/// Where every MRS and MSR has its Rt.
pub(crate) fn rt_of(word: u32) -> u8 {
    (word & 31) as u8
}

#[cfg(test)]
mod tests {
    use super::*;

    fn parts(word: u32) -> Option<(Direction, &'static str, u8)> {
        Instruction::of(word).map(|i| (i.direction, i.register.name, i.rt))
    }

    #[test]
    fn the_words_of_the_bench_ask_what_the_paper_says() {
        assert_eq!(parts(0xD53B_E040), Some((Direction::Mrs, "CNTVCT_EL0", 0)));
        assert_eq!(
            parts(0xD51B_E31F),
            Some((Direction::Msr, "CNTV_TVAL_EL0", XZR))
        );
        assert_eq!(
            parts(0xD53C_E400),
            Some((Direction::Mrs, "CNTHVS_TVAL_EL2", 0))
        );
    }

    #[test]
    fn control_registers_are_asked_by_words_of_their_own() {
        let mrs = |name| Some((Direction::Mrs, name, 0));
        assert_eq!(parts(0xD538_E100), mrs("CNTKCTL_EL1"));
        assert_eq!(parts(0xD53C_E100), mrs("CNTHCTL_EL2"));
        assert_eq!(parts(0xD53C_E0C0), mrs("CNTPOFF_EL2"));
        assert_eq!(parts(0xD53D_E100), None, "CNTKCTL_EL12");
    }

    #[test]
    fn a_word_that_misses_by_a_bit_asks_nothing_or_something_else() {
        let word = 0xD53B_E040;
        for bit in 0..32 {
            let missed = word ^ 1 << bit;
            assert_ne!(parts(missed), parts(word), "bit {bit}");
            if let Some(instruction) = Instruction::of(missed) {
                assert_eq!(instruction.word(), missed, "bit {bit}");
            }
        }
        assert_eq!(parts(0xD53B_E000), None);
    }
}
