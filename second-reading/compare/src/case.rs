//! A case: all that `probe` is given, made from one seed.

use reading::{Record, State, IMAGE_BYTES, RECORD_BYTES, RECORD_LIMIT};

use crate::accesses::Author;
use crate::dice::Dice;
use crate::numbers::Numbers;
use crate::states::any_state;

/// What is particular about a case.
#[derive(Clone, Copy, Debug, PartialEq, Eq)]
pub enum Kind {
    Ordinary,
    EmptyJournal,
    OneRecord,
    Ragged,
    AtLimit,
    OnePastLimit,
    RaggedPastLimit,
    ShortImage,
}

/// The kinds come round in this many seeds, so that any such stretch has each of them.
pub const KINDS: u64 = 32;

/// All registers, directions and levels once, all control bits turned, and a third as many odd
/// records.
const ORDINARY_RECORDS: usize = 300;

impl Kind {
    fn of(seed: u64) -> Kind {
        match seed % KINDS {
            0 => Kind::EmptyJournal,
            1 => Kind::OneRecord,
            2 => Kind::Ragged,
            3 => Kind::AtLimit,
            4 => Kind::OnePastLimit,
            5 => Kind::RaggedPastLimit,
            6 => Kind::ShortImage,
            _ => Kind::Ordinary,
        }
    }

    /// The whole records of the journal and the bytes after them.
    fn length(self, dice: &mut Dice) -> (usize, usize) {
        let torn = 1 + dice.below(RECORD_BYTES as u64 - 1) as usize;
        match self {
            Kind::Ordinary => (ORDINARY_RECORDS, 0),
            Kind::EmptyJournal | Kind::ShortImage => (0, 0),
            Kind::OneRecord => (1, 0),
            Kind::Ragged => (dice.below(20) as usize, torn),
            Kind::AtLimit => (RECORD_LIMIT, 0),
            Kind::OnePastLimit => (RECORD_LIMIT + 1, 0),
            Kind::RaggedPastLimit => (RECORD_LIMIT, torn),
        }
    }
}

/// A start state and a journal.
#[derive(Clone, Debug)]
pub struct Case {
    pub seed: u64,
    pub kind: Kind,
    pub state: State,
    pub journal: Vec<u8>,
    input_bytes: usize,
}

impl Case {
    /// The case of a seed, always the same.
    pub fn of(seed: u64) -> Case {
        let mut dice = Dice::of(seed);
        let kind = Kind::of(seed);
        let mut numbers = Numbers::new(&mut dice);
        let state = any_state(&mut dice, &mut numbers);
        let (whole, torn) = kind.length(&mut dice);
        let records = Author::new(&mut dice, &mut numbers, state).records(whole);
        let mut journal: Vec<u8> = records.iter().flat_map(Record::pack).collect();
        journal.extend((0..torn).map(|_| dice.any() as u8));
        let input_bytes = match kind {
            Kind::ShortImage => dice.below(IMAGE_BYTES as u64) as usize,
            _ => IMAGE_BYTES + journal.len(),
        };
        Case {
            seed,
            kind,
            state,
            journal,
            input_bytes,
        }
    }

    /// The bytes given to `probe`.
    pub fn input(&self) -> Vec<u8> {
        let mut input = self.state.to_image().to_vec();
        input.extend(&self.journal);
        input.truncate(self.input_bytes);
        input
    }

    /// The whole records of the journal.
    pub fn records(&self) -> Vec<Record> {
        let (records, _) = self.journal.as_chunks();
        records.iter().map(Record::unpack).collect()
    }
}

#[cfg(test)]
mod tests {
    use super::*;
    use reading::{Control, Instruction};
    use std::collections::HashSet;

    #[test]
    fn a_seed_makes_the_same_case_again_and_another_seed_another() {
        assert_eq!(Case::of(41).input(), Case::of(41).input());
        assert_ne!(Case::of(41).input(), Case::of(42).input());
    }

    #[test]
    fn each_kind_has_its_length() {
        let lengths: Vec<usize> = (0..8).map(|seed| Case::of(seed).journal.len()).collect();
        assert_eq!(lengths[0], 0);
        let limit = RECORD_LIMIT * RECORD_BYTES;
        assert_eq!(lengths[1], RECORD_BYTES);
        assert_ne!(lengths[2] % RECORD_BYTES, 0);
        assert_eq!(lengths[3..5], [limit, limit + RECORD_BYTES]);
        assert!(lengths[5] > limit && lengths[5] < limit + RECORD_BYTES);
        assert!(Case::of(6).input().len() < IMAGE_BYTES);
        assert_eq!(lengths[7], ORDINARY_RECORDS * RECORD_BYTES);
    }

    #[test]
    fn an_ordinary_case_asks_every_register_both_ways_at_every_level() {
        let asked: HashSet<String> = Case::of(31)
            .records()
            .iter()
            .filter_map(|record| {
                let instruction = Instruction::of(record.access.word).ok()?;
                let (register, direction) = (instruction.register, instruction.direction);
                let level = record.access.level;
                (record.reserved == 0).then(|| format!("{register:?} {direction:?} {level}"))
            })
            .collect();
        assert_eq!(asked.len(), 20 * 2 * 4);
    }

    #[test]
    fn an_ordinary_case_turns_every_control_bit_between_two_like_accesses() {
        let turned = |four: &&[Record]| {
            let [write, asked, turned, again] = [0, 1, 2, 3].map(|place| four[place].access);
            let bits = write.operand ^ turned.operand;
            write.word == turned.word && bits.is_power_of_two() && asked == again
        };
        let records = Case::of(31).records();
        let turns = records.windows(4).filter(turned).count();
        assert_eq!(turns, Control::ALL.len());
    }
}
