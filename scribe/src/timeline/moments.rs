//! The moments of a journal: each record, and each change of a line between two of them.

use crate::fields::{changes, Change};
use crate::record::Record;
use crate::state::State;

use super::deadlines::proposed;
use super::desk::{Desk, Seen};

#[derive(Clone, Debug, PartialEq, Eq)]
pub enum Cause {
    /// The first state, at the count of the first record.
    Start,
    /// The count alone: a line changes before a record is served.
    Count,
    Record(Record),
}

#[derive(Clone, Debug, PartialEq, Eq)]
pub struct Moment {
    pub count: u64,
    pub cause: Cause,
    pub seen: Seen,
    /// What the record changed.
    pub moved: Vec<Change>,
    /// The numbers of the records that it stands for, from 1 on: its own and those after it that
    /// leave all as it is.
    pub records: Option<(usize, usize)>,
    /// Whether the count is below the one before it.
    pub goes_back: bool,
}

/// The moments of a journal from a state on, in the order of its records.
pub fn moments(
    desk: &mut impl Desk,
    start: &State,
    journal: &[Record],
) -> Result<Vec<Moment>, String> {
    let Some(first) = journal.first() else {
        return Ok(Vec::new());
    };
    let seen = desk.look(start, None, first.count)?;
    let mut walk = Walk {
        desk,
        last: moment(first.count, Cause::Start, seen),
        past: Vec::new(),
    };
    for (index, record) in journal.iter().enumerate() {
        walk.serve(index + 1, record)?;
    }
    walk.past.push(walk.last);
    Ok(walk.past)
}

fn moment(count: u64, cause: Cause, seen: Seen) -> Moment {
    Moment {
        count,
        cause,
        seen,
        moved: Vec::new(),
        records: None,
        goes_back: false,
    }
}

struct Walk<'a, D> {
    desk: &'a mut D,
    past: Vec<Moment>,
    last: Moment,
}

impl<D: Desk> Walk<'_, D> {
    fn serve(&mut self, number: usize, record: &Record) -> Result<(), String> {
        let state = self.last.seen.state;
        let seen = self.desk.look(&state, Some(record), record.count)?;
        self.pass(&state, record.count, &seen)?;
        if record.count == self.last.count && seen == self.last.seen {
            let (first, _) = self.last.records.unwrap_or((number, number));
            self.last.records = Some((first, number));
        } else {
            let mut next = moment(record.count, Cause::Record(*record), seen);
            next.moved = changes(&state, &next.seen.state);
            next.records = Some((number, number));
            self.go_on(next);
        }
        Ok(())
    }

    /// Goes on to a record's count, before which only the count changes. What is seen after a record
    /// that moved nothing is what is seen before it, so that is not asked twice.
    fn pass(&mut self, state: &State, count: u64, after: &Seen) -> Result<(), String> {
        let from = self.last.count;
        for between in proposed(state, from, count) {
            let seen = self.desk.look(state, None, between)?;
            self.go_on_by_count(state, between, seen)?;
        }
        if count != from {
            let seen = match after.state == *state {
                true => after.clone(),
                false => self.desk.look(state, None, count)?,
            };
            self.go_on_by_count(state, count, seen)?;
        }
        Ok(())
    }

    /// Where a line is not as it was, the count before is asked for too: what turned earlier than
    /// was proposed is not drawn too late.
    fn go_on_by_count(&mut self, state: &State, count: u64, seen: Seen) -> Result<(), String> {
        if seen.lines == self.last.seen.lines {
            return Ok(());
        }
        if let Some(before) = count
            .checked_sub(1)
            .filter(|&before| self.last.count < before)
        {
            let seen = self.desk.look(state, None, before)?;
            self.turn(before, seen);
        }
        self.turn(count, seen);
        Ok(())
    }

    fn turn(&mut self, count: u64, seen: Seen) {
        if seen.lines != self.last.seen.lines {
            self.go_on(moment(count, Cause::Count, seen));
        }
    }

    fn go_on(&mut self, mut next: Moment) {
        next.goes_back = next.count < self.last.count;
        self.past.push(std::mem::replace(&mut self.last, next));
    }
}

#[cfg(test)]
mod tests {
    use super::*;
    use crate::timeline::desk::Reading;

    /// A desk with one rule and one register: CNTV's line is up from its CVAL to a hundred later,
    /// and a record of word 1 writes its operand there.
    #[derive(Default)]
    struct Simple {
        looks: usize,
    }

    impl Desk for Simple {
        fn look(
            &mut self,
            state: &State,
            record: Option<&Record>,
            count: u64,
        ) -> Result<Seen, String> {
            self.looks += 1;
            let mut state = *state;
            if let Some(write) = record.filter(|record| record.word == 1) {
                state.timers[1].cval = write.operand;
            }
            let cval = state.timers[1].cval;
            let mut lines = [false; 6];
            lines[1] = cval <= count && count < cval + 100;
            Ok(Seen {
                state,
                lines: Some(lines),
                virtual_count: Reading::Value(count),
                tval: Reading::Unknown,
            })
        }
    }

    fn start(cval: u64) -> State {
        let mut state = State::default();
        state.timers[1].cval = cval;
        state.timers[1].enable = true;
        state.cntvoff = 100;
        state
    }

    fn read(count: u64) -> Record {
        Record {
            count,
            ..Record::default()
        }
    }

    fn write(operand: u64, count: u64) -> Record {
        Record {
            word: 1,
            operand,
            ..read(count)
        }
    }

    /// The moments in short: count, cause, records, and whether CNTV's line is up.
    fn told(cval: u64, journal: &[Record]) -> Vec<String> {
        told_from(&start(cval), journal)
    }

    fn told_from(start: &State, journal: &[Record]) -> Vec<String> {
        let found = moments(&mut Simple::default(), start, journal);
        let tell = |moment: &Moment| {
            let cause = match moment.cause {
                Cause::Start => "start".to_string(),
                Cause::Count => "count".to_string(),
                Cause::Record(_) => format!("moves {}", moment.moved.len()),
            };
            let up = moment.seen.lines.is_some_and(|lines| lines[1]);
            let back = if moment.goes_back { " back" } else { "" };
            let records = match moment.records {
                Some((first, last)) => format!(" {first}-{last}"),
                None => String::new(),
            };
            let up = if up { " up" } else { "" };
            format!("{} {cause}{records}{up}{back}", moment.count)
        };
        found
            .expect("a desk that answers")
            .iter()
            .map(tell)
            .collect()
    }

    #[test]
    fn without_a_record_there_is_no_moment() {
        assert!(told(5, &[]).is_empty());
    }

    #[test]
    fn a_deadline_between_two_records_has_its_own_count() {
        assert_eq!(
            told(500, &[read(450), read(550)]),
            ["450 start 1-1", "500 count up", "550 moves 0 2-2 up"]
        );
        assert_eq!(
            told(500, &[read(450), read(650)]),
            [
                "450 start 1-1",
                "500 count up",
                "600 count",
                "650 moves 0 2-2"
            ],
            "where the line falls is proposed by the offset"
        );
    }

    #[test]
    fn what_turns_where_nothing_was_proposed_is_not_drawn_too_late() {
        let start = State {
            cntvoff: 0,
            ..start(500)
        };
        assert_eq!(
            told_from(&start, &[read(550), read(650)]),
            ["550 start 1-1 up", "649 count", "650 moves 0 2-2"]
        );
    }

    #[test]
    fn a_line_that_comes_with_the_count_of_a_record_comes_before_it() {
        assert_eq!(
            told(500, &[read(499), write(900, 500)]),
            ["499 start 1-1", "500 count up", "500 moves 1 2-2"]
        );
    }

    #[test]
    fn records_that_change_nothing_join_the_moment_before_them() {
        assert_eq!(
            told(500, &[read(5), read(5), write(600, 5), read(5), read(6)]),
            ["5 start 1-2", "5 moves 1 3-4", "6 moves 0 5-5"]
        );
    }

    #[test]
    fn a_count_may_go_back() {
        assert_eq!(
            told(500, &[read(550), read(5), read(4)]),
            ["550 start 1-1 up", "5 count 2-2 back", "4 moves 0 3-3 back"]
        );
    }

    #[test]
    fn what_is_known_is_not_asked_again() {
        let mut desk = Simple::default();
        let journal = [read(1), read(1), read(2), write(900, 3), write(800, 3)];
        moments(&mut desk, &start(5000), &journal).expect("a desk that answers");
        assert_eq!(
            desk.looks,
            1 + journal.len() + 1,
            "the start, and before record 4"
        );
    }

    #[test]
    fn a_desk_that_says_nothing_ends_it() {
        struct Silent;
        impl Desk for Silent {
            fn look(&mut self, _: &State, _: Option<&Record>, _: u64) -> Result<Seen, String> {
                Err("gone".to_string())
            }
        }
        let found = moments(&mut Silent, &State::default(), &[read(1)]);
        assert_eq!(found, Err("gone".to_string()));
    }
}
