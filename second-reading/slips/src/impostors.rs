//! The four impostors that document 01 names under 'How tightly it is nailed'.

use reading::{Answer, AsWritten, Paper, Reading, Record, RECORD_BYTES};

use crate::Slip;

pub(crate) fn slips() -> Vec<Slip> {
    let undefined = Answer::number(1, 0);
    let six_hundred = Answer {
        value: 600,
        ..Answer::number(0, 0)
    };
    vec![
        Slip::new("an impostor that says Undefined to all", ToAll(undefined)),
        Slip::new("an impostor that answers 600 to all", ToAll(six_hundred)),
        Slip::new("an impostor that never stores a write", NothingStored),
        Slip::new(
            "an impostor that serves the first record and copies it onward",
            FirstAnswerCopied,
        ),
    ]
}

/// One answer to all accesses, but for the word's Rt.
struct ToAll(Answer);

impl Paper for ToAll {
    fn answer(&self, reading: &mut Reading, record: &Record) -> Answer {
        match record.reserved {
            0 => Answer {
                rt: (record.access.word & 31) as u8,
                ..self.0
            },
            _ => AsWritten.answer(reading, record),
        }
    }
}

struct NothingStored;

impl Paper for NothingStored {
    fn answer(&self, reading: &mut Reading, record: &Record) -> Answer {
        let before = reading.state;
        let answer = AsWritten.answer(reading, record);
        reading.state = before;
        answer
    }
}

struct FirstAnswerCopied;

impl Paper for FirstAnswerCopied {
    fn run(&self, reading: &mut Reading, journal: &[u8], answers: &mut [u8]) -> u8 {
        let number = AsWritten.run(reading, journal, answers);
        if number == 0 {
            let (parts, _) = answers[..journal.len()].as_chunks_mut::<RECORD_BYTES>();
            if let Some(&first) = parts.first() {
                parts.fill(first);
            }
        }
        number
    }
}
