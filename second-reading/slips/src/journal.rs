//! Slips in the refusals, their order, the limit and the run.

use reading::{Answer, AsWritten, InPrint, Instruction, Paper, Reading, Record, RECORD_LIMIT};

use crate::Slip;

pub(crate) fn slips() -> Vec<Slip> {
    let limit_of = |records| {
        let words = format!("a limit of {} records", InPrint(records));
        Slip::new(&words, LimitOf(records))
    };
    vec![
        Slip::new("a refusal gives the word's Rt", RtOfRefusals),
        Slip::new("4 before 6", Order([7, 8, 4, 6, 5])),
        Slip::new("5 before 4", Order([7, 8, 6, 5, 4])),
        limit_of(RECORD_LIMIT - 1),
        limit_of(RECORD_LIMIT + 1),
        Slip::new("a refused record stops the run", RefusalEndsRun),
    ]
}

struct RtOfRefusals;

impl Paper for RtOfRefusals {
    fn answer(&self, reading: &mut Reading, record: &Record) -> Answer {
        let answer = AsWritten.answer(reading, record);
        match (answer.number, Instruction::of(record.access.word)) {
            (4..=6, Ok(instruction)) => Answer::number(answer.number, instruction.rt),
            _ => answer,
        }
    }
}

pub(crate) struct Order(pub(crate) [u8; 5]);

impl Paper for Order {
    fn order(&self) -> [u8; 5] {
        self.0
    }
}

struct LimitOf(usize);

impl Paper for LimitOf {
    fn limit(&self) -> usize {
        self.0
    }
}

struct RefusalEndsRun;

impl Paper for RefusalEndsRun {
    fn goes_on_after(&self, answer: &Answer) -> bool {
        !(4..=6).contains(&answer.number)
    }
}
