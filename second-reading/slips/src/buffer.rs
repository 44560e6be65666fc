//! Slips of the lent buffer.

use reading::{AsWritten, Clause, Paper, Reading};

use crate::journal::Order;
use crate::left_out::left_out;
use crate::Slip;

pub(crate) fn slips() -> Vec<Slip> {
    vec![
        Slip::new("8 before 7", Order([8, 7, 6, 4, 5])),
        Slip::new(
            "a buffer just as long as the journal refused",
            HasToBeLonger,
        ),
        Slip::new("the buffer cleared by 7 and 8", RefusalClears),
        Slip::new("the bytes after the last answer cleared", RestCleared),
        left_out(Clause::BufferShort),
    ]
}

struct HasToBeLonger;

impl Paper for HasToBeLonger {
    fn too_short(&self, answers: usize, journal: usize) -> bool {
        answers <= journal
    }
}

struct RefusalClears;

impl Paper for RefusalClears {
    fn run(&self, reading: &mut Reading, journal: &[u8], answers: &mut [u8]) -> u8 {
        let number = AsWritten.run(reading, journal, answers);
        if number != 0 {
            answers.fill(0);
        }
        number
    }
}

struct RestCleared;

impl Paper for RestCleared {
    fn run(&self, reading: &mut Reading, journal: &[u8], answers: &mut [u8]) -> u8 {
        let number = AsWritten.run(reading, journal, answers);
        if number == 0 {
            answers[journal.len()..].fill(0);
        }
        number
    }
}
