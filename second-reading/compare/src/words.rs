//! Instruction words: of the table's registers, and such as miss them by a little.

use reading::{Direction, Instruction, Part, Register};

use crate::dice::Dice;

/// A word of the register, often with an Rt at an edge.
pub(crate) fn word(dice: &mut Dice, register: Register, direction: Direction) -> u32 {
    let other = dice.below(32) as u8;
    Instruction {
        direction,
        register,
        rt: dice.pick(&[0, 30, 31, other]),
    }
    .word()
}

/// A word of a kind from 0 to 8, and for some of them nothing odd in it.
pub(crate) fn odd_word(dice: &mut Dice, kind: u64) -> u32 {
    let word = named_word(dice);
    match kind {
        1 => word ^ miss(dice),
        2 | 3 => word ^ miss(dice) ^ miss(dice),
        4 => dice.any() as u32,
        5 => neighbour(dice, word),
        6 => status_read(dice),
        7 => alias(word),
        _ => word,
    }
}

fn named_word(dice: &mut Dice) -> u32 {
    let registers: Vec<Register> = Register::all().collect();
    let register = dice.pick(&registers);
    let direction = dice.pick(&Direction::ALL);
    word(dice, register, direction)
}

fn status_read(dice: &mut Dice) -> u32 {
    let ctls: Vec<Register> = Register::all().filter(is_ctl).collect();
    let register = dice.pick(&ctls);
    word(dice, register, Direction::Mrs)
}

pub(crate) fn is_ctl(register: &Register) -> bool {
    register.part() == Some(Part::Ctl)
}

/// A bit outside Rt to miss a word by.
fn miss(dice: &mut Dice) -> u32 {
    1 << (5 + dice.below(27))
}

/// A word with other op1, CRm and op2: registers next to those of the table.
fn neighbour(dice: &mut Dice, word: u32) -> u32 {
    let fields = 0x0007_0FE0;
    word & !fields | dice.any() as u32 & fields
}

/// A word with op1 5, as Arm's pages have CNTKCTL_EL12 and other names that are not in the table.
fn alias(word: u32) -> u32 {
    word & !(7 << 16) | 5 << 16
}
