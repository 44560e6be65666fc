//! An access as it comes in, and what is answered to it.

use crate::instruction::Instruction;
use crate::state::Level;

/// A trapped access.
#[derive(Clone, Copy, Debug, Default, PartialEq, Eq)]
pub struct Access {
    pub word: u32,
    pub level: u8,
    pub operand: u64,
    pub count: u64,
}

/// An access that passed the refusals.
#[derive(Clone, Copy, Debug)]
pub(crate) struct Call {
    pub(crate) instruction: Instruction,
    pub(crate) level: Level,
    pub(crate) operand: u64,
    pub(crate) count: u64,
}

/// What is answered to one access.
#[derive(Clone, Copy, Debug, Default, PartialEq, Eq)]
pub struct Answer {
    pub number: u8,
    pub rt: u8,
    /// The 55 bits that are zero in every answer the paper knows.
    pub padding: u64,
    pub value: u64,
    pub mask: u64,
}

impl Answer {
    /// An answer with value and mask 0.
    pub fn number(number: u8, rt: u8) -> Answer {
        Answer {
            number,
            rt,
            ..Answer::default()
        }
    }
}
