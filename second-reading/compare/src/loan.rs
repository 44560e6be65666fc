//! A loan: the journal of a case with a lent buffer that need not be as long.

use reading::{Clause, Paper, Reading, RECORD_BYTES};

use crate::case::{Case, Kind};
use crate::difference::{explain_parts, Output};
use crate::expected::Expected;
use crate::program::{Program, Ran};

/// What the bench has in every lent byte before the call.
const UNTOUCHED: u8 = 0xEE;

/// How long a lent buffer is beside the journal.
#[derive(Clone, Copy, Debug, PartialEq, Eq, PartialOrd, Ord)]
pub enum Lent {
    Empty,
    OneRecordShort,
    OneByteShort,
    AsLong,
    OneByteLonger,
    MuchLonger,
}

impl Lent {
    pub const ALL: [Lent; 6] = [
        Lent::Empty,
        Lent::OneRecordShort,
        Lent::OneByteShort,
        Lent::AsLong,
        Lent::OneByteLonger,
        Lent::MuchLonger,
    ];

    /// The bytes that are lent for a journal of so many, unless it has too few to fall short of.
    fn bytes(self, journal: usize) -> Option<usize> {
        match self {
            Lent::Empty => Some(0),
            Lent::OneRecordShort => journal.checked_sub(RECORD_BYTES),
            Lent::OneByteShort => journal.checked_sub(1),
            Lent::AsLong => Some(journal),
            Lent::OneByteLonger => Some(journal + 1),
            Lent::MuchLonger => Some(journal + 1000),
        }
    }

    /// The clauses on a whole run that such a buffer has to meet. An empty one is as long as an
    /// empty journal.
    pub(crate) fn due(self) -> &'static [Clause] {
        use Clause::*;
        match self {
            Lent::Empty => &[JournalRagged, JournalTooLong, BufferShort, RunDone],
            Lent::OneRecordShort | Lent::OneByteShort => {
                &[JournalRagged, JournalTooLong, BufferShort]
            }
            Lent::AsLong | Lent::OneByteLonger | Lent::MuchLonger => {
                &[JournalRagged, JournalTooLong, RunDone]
            }
        }
    }
}

/// A case and the buffer that is lent for its answers.
#[derive(Debug)]
pub(crate) struct Loan {
    case: Case,
    pub(crate) lent: Lent,
    bytes: usize,
}

impl Loan {
    /// A buffer for the case of a seed, if there can be such a one; an input without a whole state
    /// image has no run.
    pub(crate) fn of(seed: u64, lent: Lent) -> Option<Loan> {
        let case = Case::of(seed);
        let bytes = lent.bytes(case.journal.len())?;
        (case.kind != Kind::ShortImage).then_some(Loan { case, lent, bytes })
    }

    /// Has the bench lend the buffer.
    pub(crate) fn lend(&self, bench: &Program) -> Result<Ran, String> {
        let bench = bench.with(&self.bytes.to_string());
        bench
            .run(&self.case.input())
            .map_err(|error| format!("case {:#018X}: {error}", self.case.seed))
    }

    /// The number of the run, every lent byte, and the end of any output.
    pub(crate) fn expected(&self, paper: &dyn Paper) -> Expected {
        let journal = &self.case.journal[..];
        let mut reading = Reading::of(paper, self.case.state);
        let mut buffer = vec![UNTOUCHED; self.bytes];
        let number = reading.run(journal, &mut buffer);
        let served = if number == 0 { journal } else { &[] };
        Expected::of(reading, [vec![number], buffer].concat(), served)
    }

    /// How what the bench wrote differs from the expected, in words, or how it ended badly.
    pub(crate) fn difference(&self, expected: &Expected, ran: &Ran) -> Option<String> {
        let (seed, kind, lent) = (self.case.seed, self.case.kind, self.bytes);
        let head = format!("case {seed:#018X} ({kind:?}) with {lent} bytes lent");
        let (expected, found) = (expected.by_reading(), ran.by_program());
        let told = explain_parts(&head, expected, found, number_and_buffer);
        ran.with_its_end(seed, told)
    }
}

/// The number of the run stands before the lent bytes; the first that differs is told.
fn number_and_buffer(expected: Output, found: Output) -> String {
    let mut pairs = expected.bytes.iter().zip(found.bytes).enumerate();
    let Some((place, (wants, has))) = pairs.find(|(_, (wants, has))| wants != has) else {
        return String::new();
    };
    let what = match place {
        0 => "number of the run".to_string(),
        _ => format!("from lent byte {} on", place - 1),
    };
    format!(
        "  {what}: {} {wants:#X}; {} {has:#X}\n",
        expected.by, found.by
    )
}

#[cfg(test)]
mod tests {
    use super::*;
    use reading::AsWritten;

    const EMPTY_JOURNAL: u64 = 0;
    const ONE_RECORD: u64 = 1;

    fn expected(lent: Lent) -> Vec<u8> {
        let loan = Loan::of(ONE_RECORD, lent).expect("a record has room on both sides");
        loan.expected(&AsWritten).output
    }

    #[test]
    fn a_short_buffer_gets_8_and_stays() {
        let lengths = [
            (Lent::Empty, 0),
            (Lent::OneRecordShort, 0),
            (Lent::OneByteShort, RECORD_BYTES - 1),
        ];
        for (lent, bytes) in lengths {
            let output = expected(lent);
            assert_eq!(output.len(), 1 + bytes + 130, "{lent:?}");
            assert_eq!(output[0], 8, "{lent:?}");
            let lent_bytes = &output[1..][..bytes];
            assert!(lent_bytes.iter().all(|&byte| byte == UNTOUCHED), "{lent:?}");
        }
    }

    #[test]
    fn a_long_buffer_is_touched_up_to_the_last_answer() {
        let lengths = [
            (Lent::AsLong, RECORD_BYTES),
            (Lent::OneByteLonger, RECORD_BYTES + 1),
            (Lent::MuchLonger, RECORD_BYTES + 1000),
        ];
        for (lent, bytes) in lengths {
            let output = expected(lent);
            assert_eq!(output.len(), 1 + bytes + 130, "{lent:?}");
            let (answer, rest) = output[1..][..bytes].split_at(RECORD_BYTES);
            assert_eq!(output[0], 0, "{lent:?}");
            assert!(answer.contains(&0), "{lent:?}");
            assert!(rest.iter().all(|&byte| byte == UNTOUCHED), "{lent:?}");
        }
    }

    #[test]
    fn nothing_falls_short_of_an_empty_journal() {
        let lent = |lent| Loan::of(EMPTY_JOURNAL, lent);
        assert!(lent(Lent::OneByteShort).is_none() && lent(Lent::OneRecordShort).is_none());
        assert!(lent(Lent::Empty).is_some() && lent(Lent::OneByteLonger).is_some());
    }

    #[test]
    fn the_first_difference_is_told() {
        let told = |wants: &[u8], has: &[u8]| {
            let [expected, found] =
                [("ours", wants), ("theirs", has)].map(|(by, bytes)| Output { by, bytes });
            number_and_buffer(expected, found)
        };
        let number = told(&[7, 0xEE], &[8, 0]);
        assert_eq!(number, "  number of the run: ours 0x7; theirs 0x8\n");
        let byte = told(&[0, 0, 0xEE, 0xEE], &[0, 0, 0, 0]);
        assert_eq!(byte, "  from lent byte 1 on: ours 0xEE; theirs 0x0\n");
        assert_eq!(told(&[0, 0], &[0, 0]), "");
    }
}
