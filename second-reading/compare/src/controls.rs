//! What CNTKCTL and CNTHCTL hold at the start, and what is written to them.

use reading::ControlName;

use crate::dice::Dice;

/// The control bits the rules look at; the others are ignored and set at random.
const CNTKCTL_USED: [u32; 4] = [0, 1, 8, 9];
const CNTHCTL_USED: [u32; 6] = [0, 1, 8, 9, 10, 11];
const CNTHCTL_ECV: u32 = 12;
const CNTHCTL_TRAPS: [u32; 2] = [13, 14];

/// The bits that Arm's pages speak of, from 0 on.
const ON_THE_PAGES: u64 = 20;

/// Bits that permit more often than not.
pub(crate) fn permitting(dice: &mut Dice, name: ControlName) -> u32 {
    match name {
        ControlName::Cntkctl => bits(dice, &CNTKCTL_USED, 70) | unused(dice, &CNTKCTL_USED),
        ControlName::Cnthctl => {
            let ecv_bits = bits(dice, &[CNTHCTL_ECV], 60) | bits(dice, &CNTHCTL_TRAPS, 30);
            let used = [&CNTHCTL_USED[..], &[CNTHCTL_ECV], &CNTHCTL_TRAPS].concat();
            bits(dice, &CNTHCTL_USED, 65) | ecv_bits | unused(dice, &used)
        }
    }
}

/// Such bits as an operand.
pub(crate) fn permitting_operand(dice: &mut Dice, name: ControlName) -> u64 {
    upper_half(dice) | u64::from(permitting(dice, name))
}

/// An operand: most often bits that permit, so that a journal does not end up shut; else what is
/// held with one bit turned, all ones, or anything.
pub(crate) fn operand(dice: &mut Dice, name: ControlName, held: u32) -> u64 {
    match dice.below(20) {
        0..=13 => permitting_operand(dice, name),
        14..=17 => upper_half(dice) | u64::from(held ^ 1 << dice.below(ON_THE_PAGES)),
        18 => u64::MAX,
        _ => dice.any(),
    }
}

/// Above the 32 bits that are stored: nothing or anything.
fn upper_half(dice: &mut Dice) -> u64 {
    let above = dice.any() << 32;
    dice.pick(&[0, above])
}

fn bits(dice: &mut Dice, places: &[u32], chance: u64) -> u32 {
    places
        .iter()
        .map(|place| u32::from(dice.percent(chance)) << place)
        .sum()
}

fn unused(dice: &mut Dice, used: &[u32]) -> u32 {
    let used: u32 = used.iter().map(|place| 1 << place).sum();
    dice.any() as u32 & !used
}
