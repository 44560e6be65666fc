//! Document 01, 'The access journal': the run of a whole journal.

use crate::clause::Clause::*;
use crate::reading::Reading;
use crate::record::{Record, RECORD_BYTES};
use crate::refusal::Refusal;
use crate::tally::Cell;

impl Reading<'_> {
    /// Runs a journal on the state and gives the number of the run: 0, 7 or 8. Bytes of the buffer
    /// after the last answer stay.
    pub fn run(&mut self, journal: &[u8], answers: &mut [u8]) -> u8 {
        let paper = self.paper;
        paper.run(self, journal, answers)
    }

    pub(crate) fn run_in_order(&mut self, journal: &[u8], answers: &mut [u8]) -> u8 {
        if let Err(refusal) = self.runnable(journal.len(), answers.len()) {
            self.note(refusal.clause, Cell::Whole);
            return refusal.number;
        }
        self.note(RunDone, Cell::Whole);
        let (records, _) = journal.as_chunks::<RECORD_BYTES>();
        let (parts, _) = answers.as_chunks_mut::<RECORD_BYTES>();
        for (record, part) in records.iter().zip(parts) {
            let answer = self.record(&Record::unpack(record));
            *part = answer.pack();
            if !self.paper.goes_on_after(&answer) {
                break;
            }
        }
        0
    }

    /// 7: journal not a whole number of records, or over the limit. 8: answer buffer shorter than
    /// the journal.
    fn runnable(&self, journal: usize, answers: usize) -> Result<(), Refusal> {
        let ragged = !journal.is_multiple_of(RECORD_BYTES);
        let too_long = journal > self.paper.limit() * RECORD_BYTES;
        let short = self.paper.too_short(answers, journal);
        let whole = self.unless(&[(JournalRagged, ragged, 7), (JournalTooLong, too_long, 7)]);
        let room = self.unless(&[(BufferShort, short, 8)]);
        self.both(whole, room).map(|_| ())
    }
}
