//! Moments for tests, by what is seen of them.

use crate::fields::changes;
use crate::record::Record;
use crate::state::{State, TIMERS};

use super::desk::{Reading, Seen};
use super::moments::{Cause, Moment};

/// A moment at the start, no line being up.
pub(super) fn start(count: u64) -> Moment {
    Moment {
        count,
        cause: Cause::Start,
        seen: Seen {
            state: State::bench(),
            lines: Some([false; TIMERS.len()]),
            virtual_count: Reading::Value(count),
            tval: Reading::Unknown,
        },
        moved: Vec::new(),
        records: None,
        goes_back: false,
    }
}

/// The moment after another one that the count brings, with those lines up.
pub(super) fn turn(before: &Moment, count: u64, up: &[usize]) -> Moment {
    let mut next = start(count);
    next.cause = Cause::Count;
    next.seen.state = before.seen.state;
    next.seen.lines = Some(std::array::from_fn(|timer| up.contains(&timer)));
    next.goes_back = count < before.count;
    next
}

/// The moment after another one that a record of that number brings, which leaves that state.
pub(super) fn write(before: &Moment, number: usize, word: u32, state: State) -> Moment {
    let mut next = before.clone();
    next.cause = Cause::Record(Record {
        word,
        ..Record::default()
    });
    next.moved = changes(&before.seen.state, &state);
    next.seen.state = state;
    next.records = Some((number, number));
    next.goes_back = false;
    next
}

/// Moments with all six lines, the longest numbers and the longest words that there are.
pub(super) fn widest() -> Vec<Moment> {
    const MSR_CNTHVS_TVAL: u32 = 0xD51C_E400;
    let mut first = start(u64::MAX);
    first.seen.tval = Reading::Value(1 << 63);
    for timer in &mut first.seen.state.timers {
        timer.enable = true;
    }
    let mut state = first.seen.state;
    state.timers[5].cval = u64::MAX;
    let mut second = write(&first, 1000, MSR_CNTHVS_TVAL, state);
    second.records = Some((1000, 1023));
    state.timers[5].cval = u64::MAX - 1;
    state.timers[4].enable = false;
    state.timers[4].imask = true;
    let third = write(&second, 1024, MSR_CNTHVS_TVAL, state);
    let mut fourth = turn(&third, u64::MAX - 1, &[0, 1, 2]);
    fourth.seen.tval = Reading::Value(u64::MAX - 999_999);
    let fifth = turn(&fourth, u64::MAX, &[3, 4, 5]);
    state.cntvoff = u64::MAX;
    let sixth = write(&fifth, 1024, MSR_CNTHVS_TVAL, state);
    vec![first, second, third, fourth, fifth, sixth]
}
