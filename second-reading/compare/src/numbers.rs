//! Counts, offsets, compare values and operands: at and around the edges and each other.

use crate::dice::Dice;

const EDGES: [u64; 6] = [0, 1 << 31, 1 << 32, 1 << 63, u64::MAX, 1000];

/// How far from a known number its neighbours are taken.
const NEAR: u64 = 2;

/// The most numbers kept in mind; a new one then takes the place of an older one.
const KNOWN_AT_MOST: usize = 40;

/// The numbers of one case.
pub(crate) struct Numbers {
    known: Vec<u64>,
    clock: u64,
    /// Whether counts mostly move on slowly, so that a timer set by one record is due within
    /// the next few.
    steady: bool,
}

impl Numbers {
    pub(crate) fn new(dice: &mut Dice) -> Numbers {
        let mut numbers = Numbers {
            known: EDGES.to_vec(),
            clock: 0,
            steady: dice.percent(40),
        };
        numbers.clock = numbers.any(dice);
        numbers.remember(dice, numbers.clock);
        numbers
    }

    pub(crate) fn remember(&mut self, dice: &mut Dice, number: u64) {
        if self.known.len() < KNOWN_AT_MOST {
            self.known.push(number);
        } else {
            let newer = (KNOWN_AT_MOST - EDGES.len()) as u64;
            let place = EDGES.len() + dice.below(newer) as usize;
            self.known[place] = number;
        }
    }

    /// Any number, most often near known ones, their sums and differences.
    pub(crate) fn any(&self, dice: &mut Dice) -> u64 {
        let first = dice.pick(&self.known);
        let second = dice.pick(&self.known);
        match dice.below(10) {
            0..=3 => near(dice, first),
            4..=5 => near(dice, first.wrapping_add(second)),
            6..=7 => near(dice, first.wrapping_sub(second)),
            8 => near(dice, self.clock),
            _ => dice.any() >> dice.below(64),
        }
    }

    /// The physical count of the next record; it may fall behind the last one.
    pub(crate) fn count(&mut self, dice: &mut Dice) -> u64 {
        if self.steady && !dice.percent(10) {
            self.clock = self.clock.wrapping_add(dice.below(4));
            self.clock
        } else {
            self.any(dice)
        }
    }

    /// An operand: a pattern of control bits, a small signed number or an edge of 32 bits with
    /// and without something above it, or any number.
    pub(crate) fn operand(&self, dice: &mut Dice) -> u64 {
        let above = dice.any() << 32;
        match dice.below(8) {
            0 => dice.below(8),
            1 => small_signed(dice),
            2 => above | small_signed(dice),
            3 => edge_of_32_bits(dice),
            4 => above | edge_of_32_bits(dice),
            5 => dice.any(),
            _ => self.any(dice),
        }
    }
}

fn near(dice: &mut Dice, number: u64) -> u64 {
    number
        .wrapping_add(dice.below(2 * NEAR + 1))
        .wrapping_sub(NEAR)
}

fn small_signed(dice: &mut Dice) -> u64 {
    dice.below(16).wrapping_sub(8) & 0xFFFF_FFFF
}

fn edge_of_32_bits(dice: &mut Dice) -> u64 {
    let edge = dice.pick(&[0, 1 << 31]);
    near(dice, edge) & 0xFFFF_FFFF
}
