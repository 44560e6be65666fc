//! In how many ways a clause has to be met.

use crate::instruction::Direction;
use crate::register::{Part, Register};
use crate::state::TimerName;
use crate::tally::Cell;

/// The ways in which a clause has to be met before it counts as met.
#[derive(Clone, Copy, Debug)]
pub enum Scope {
    /// Once, anyhow.
    Once,
    /// By each of these registers in each of these directions.
    Calls(&'static [Register], &'static [Direction]),
    /// By each part of a timer's family, read and written.
    Parts(fn(Part) -> Register),
    /// By each register that there is to be read, or to be written.
    Every(Direction),
    /// For each of these timers.
    Timers(&'static [TimerName]),
    /// No journal given to a program can reach it: it takes a lent buffer, or a level that no
    /// record holds.
    OutsideJournals,
}

impl Scope {
    /// Each way by itself.
    pub fn cells(self) -> Vec<Cell> {
        match self {
            Scope::Once => vec![Cell::Whole],
            Scope::Calls(registers, directions) => calls(registers, directions),
            Scope::Parts(family) => calls(&Part::ALL.map(family), &Direction::ALL),
            Scope::Every(direction) => every(direction),
            Scope::Timers(timers) => timers.iter().copied().map(Cell::Timer).collect(),
            Scope::OutsideJournals => Vec::new(),
        }
    }
}

fn calls(registers: &[Register], directions: &[Direction]) -> Vec<Cell> {
    let each = |&register| directions.iter().map(move |&d| Cell::Call(register, d));
    registers.iter().flat_map(each).collect()
}

/// A counter is not there to be written.
fn every(direction: Direction) -> Vec<Cell> {
    let registers = Register::all().filter(|register| match direction {
        Direction::Mrs => true,
        Direction::Msr => !register.is_counter(),
    });
    calls(&registers.collect::<Vec<_>>(), &[direction])
}
