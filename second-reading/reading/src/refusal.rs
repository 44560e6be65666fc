//! Document 01, 'What the desk answers': the refusals, 4 to 8, and their order.

use crate::clause::Clause::{self, *};
use crate::instruction::{Instruction, Stranger};
use crate::reading::{Reading, Rule};
use crate::state::Level;

/// The number of a refusal, with the clause that refuses.
#[derive(Clone, Copy, Debug, PartialEq, Eq)]
pub(crate) struct Refusal {
    pub(crate) number: u8,
    pub(crate) clause: Clause,
}

/// 4: not MRS/MSR, or not in the name table.
pub(crate) fn named(word: u32) -> Result<Instruction, Refusal> {
    Instruction::of(word).map_err(|stranger| Refusal {
        number: 4,
        clause: match stranger {
            Stranger::NotMrsOrMsr => NotMrsOrMsr,
            Stranger::NotInTheTable => NotInTheTable,
        },
    })
}

impl Reading<'_> {
    /// Refused with the number of the first ground that holds.
    pub(crate) fn unless(&self, grounds: &[Rule<u8>]) -> Result<(), Refusal> {
        match self.first_that_fits(grounds) {
            Some((clause, number)) => Err(Refusal { number, clause }),
            None => Ok(()),
        }
    }

    /// Both, or of two refusals the one whose turn comes first.
    pub(crate) fn both<A, B>(
        &self,
        one: Result<A, Refusal>,
        other: Result<B, Refusal>,
    ) -> Result<(A, B), Refusal> {
        match (one, other) {
            (Ok(one), Ok(other)) => Ok((one, other)),
            (Err(refusal), Ok(_)) | (Ok(_), Err(refusal)) => Err(refusal),
            (Err(one), Err(other)) if self.turn(other) < self.turn(one) => Err(other),
            (Err(one), Err(_)) => Err(one),
        }
    }

    fn turn(&self, refusal: Refusal) -> Option<usize> {
        let order = self.paper.order();
        order.iter().position(|&number| number == refusal.number)
    }

    /// 5 holds exactly when: level above 3; E2H 1 without VHE; EEL2 1 without SEL2; ECVEn or
    /// CNTHCTL bits 12 to 14 set without ECV; level EL2 with EL2 not on; level EL1 with EL2 on and
    /// TGE 1.
    pub(crate) fn possible(&self, level: u8) -> Result<Level, Refusal> {
        let level = Level::of(level).ok_or(Refusal {
            number: 5,
            clause: LevelAbove3,
        })?;
        let (on, tge) = (self.el2_on(), self.state.tge);
        let [e2h, eel2, ecven, cnthctl] = self.grounds_without_a_level();
        self.unless(&[
            (E2hWithoutVhe, e2h, 5),
            (Eel2WithoutSel2, eel2, 5),
            (EcvenWithoutEcv, ecven, 5),
            (CnthctlWithoutEcv, cnthctl, 5),
            (El2NotOn, level == Level::El2 && !on, 5),
            (El1UnderTge, level == Level::El1 && on && tge, 5),
        ])?;
        Ok(level)
    }

    /// The lines question has no level; it gives 5 on the other grounds.
    pub(crate) fn possible_for_lines(&self) -> Result<(), Refusal> {
        let [e2h, eel2, ecven, cnthctl] = self.grounds_without_a_level();
        self.unless(&[
            (LinesE2hWithoutVhe, e2h, 5),
            (LinesEel2WithoutSel2, eel2, 5),
            (LinesEcvenWithoutEcv, ecven, 5),
            (LinesCnthctlWithoutEcv, cnthctl, 5),
        ])
    }

    fn grounds_without_a_level(&self) -> [bool; 4] {
        let state = &self.state;
        let ecv_bits = state.cnthctl & self.paper.bits_with_ecv();
        [
            state.e2h && !state.vhe,
            state.eel2 && !state.sel2,
            state.ecven && !state.ecv,
            ecv_bits != 0 && !state.ecv,
        ]
    }
}
