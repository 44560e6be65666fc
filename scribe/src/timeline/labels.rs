//! What a moment is told with, in the table and in the picture.

use crate::control::ECV;
use crate::fields::{registers, Change};
use crate::instruction::{Direction, Instruction};
use crate::state::TIMERS;
use crate::words::{held_in, number};
use crate::written::Lines;

use super::desk::Reading;
use super::moments::{Cause, Moment};

const CNTV: usize = 1;

/// The timers that are drawn: CNTV, and each other that is ever on, up or written.
pub(super) fn drawn(moments: &[Moment]) -> Vec<usize> {
    let is_drawn = |timer: usize| timer == CNTV || moments.iter().any(|m| is_busy(m, timer));
    (0..TIMERS.len()).filter(|&timer| is_drawn(timer)).collect()
}

fn is_busy(moment: &Moment, timer: usize) -> bool {
    moment.seen.state.timers[timer].enable
        || is_up(&moment.seen.lines, timer) == Some(true)
        || is_written(moment, timer)
}

/// Nothing is known of the lines of a state that cannot be.
pub(super) fn is_up(lines: &Lines, timer: usize) -> Option<bool> {
    lines.map(|lines| lines[timer])
}

fn is_written(moment: &Moment, timer: usize) -> bool {
    !moved_of(moment, TIMERS[timer]).is_empty()
}

/// Whether the moment's record changed that timer, or what shifts its count.
pub(super) fn is_marked(moment: &Moment, timer: usize) -> bool {
    let shifts = |change: &Change| match (TIMERS[timer], change.name.register) {
        ("CNTP", "CNTPOFF") | ("CNTV", "CNTVOFF") => true,
        ("CNTP", "CNTHCTL") => ECV.of(change.before) != ECV.of(change.after),
        _ => false,
    };
    is_written(moment, timer) || moment.moved.iter().any(shifts)
}

/// Each moment with the lines before it; before the first they are its own.
pub(super) fn with_lines_before(moments: &[Moment]) -> impl Iterator<Item = (&Moment, &Lines)> {
    let before = moments.iter().take(1).chain(moments);
    moments.iter().zip(before.map(|moment| &moment.seen.lines))
}

/// The numbers of the records that it stands for.
pub(super) fn records(moment: &Moment) -> String {
    match moment.records {
        None => String::new(),
        Some((first, last)) if first == last => first.to_string(),
        Some((first, last)) => format!("{first}-{last}"),
    }
}

/// What brought the moment, but for what a write moved.
pub(super) fn cause(moment: &Moment, before: &Lines) -> String {
    match &moment.cause {
        Cause::Start => "start".to_string(),
        Cause::Count => turned(before, &moment.seen.lines),
        Cause::Record(record) => instruction(record.word),
    }
}

/// The lines that are not as before.
pub(super) fn turned(before: &Lines, now: &Lines) -> String {
    let turned_to = |up: bool| {
        let turned =
            |timer: &usize| is_up(now, *timer) == Some(up) && is_up(before, *timer) == Some(!up);
        let names: Vec<&str> = (0..TIMERS.len())
            .filter(turned)
            .map(|timer| TIMERS[timer])
            .collect();
        names.join(", ")
    };
    let told = [("up", turned_to(true)), ("down", turned_to(false))];
    let told: Vec<String> = told
        .into_iter()
        .filter(|(_, names)| !names.is_empty())
        .map(|(way, names)| format!("{way}: {names}"))
        .collect();
    told.join(", ")
}

fn instruction(word: u32) -> String {
    match Instruction::of(word) {
        Some(instruction) => {
            let direction = match instruction.direction {
                Direction::Mrs => "MRS",
                Direction::Msr => "MSR",
            };
            format!("{direction} {}", instruction.register.name)
        }
        None => format!("WORD {word:#010X}"),
    }
}

/// The registers that are no timer's and that a record changed, in the order of a state.
pub(super) fn moved_beside_timers(moments: &[Moment]) -> Vec<&'static str> {
    let is_moved = |register: &&str| moments.iter().any(|m| !moved_of(m, register).is_empty());
    let others = registers().into_iter();
    let others = others.filter(|register| !TIMERS.contains(register));
    others.filter(is_moved).collect()
}

/// What the record left in each field that it changed.
pub(super) fn moved(moment: &Moment) -> Vec<String> {
    let told = |change: &Change| format!("{} {}", change.name, held_in(&change.name, change.after));
    moment.moved.iter().map(told).collect()
}

/// What the record left in each field of that register that it changed.
pub(super) fn moved_of(moment: &Moment, register: &str) -> Vec<String> {
    let of_register = moment.moved.iter();
    let of_register = of_register.filter(|change| change.name.register == register);
    of_register.map(left).collect()
}

/// What a change left, without the name of the register.
pub(super) fn left(change: &Change) -> String {
    let left = held_in(&change.name, change.after);
    match change.name.part {
        Some(part) => format!("{part} {left}"),
        None => left,
    }
}

pub(super) fn virtual_count(moment: &Moment) -> String {
    read(moment.seen.virtual_count, number)
}

pub(super) fn tval(moment: &Moment) -> String {
    read(moment.seen.tval, signed)
}

fn read(reading: Reading, words: impl Fn(u64) -> String) -> String {
    match reading {
        Reading::Value(value) => words(value),
        Reading::Unknown => "?".to_string(),
        Reading::Refused => "-".to_string(),
    }
}

/// Decimal with its sign, if that is short; else the 64 bits.
fn signed(value: u64) -> String {
    match (value as i64).unsigned_abs() {
        short if value >> 63 == 1 && number(short) == short.to_string() => format!("-{short}"),
        _ => number(value),
    }
}

#[cfg(test)]
mod tests {
    use super::*;
    use crate::state::State;
    use crate::timeline::samples::{start, turn, write};

    #[test]
    fn a_tval_has_its_sign_while_it_is_short() {
        for (value, told) in [
            (500, "500"),
            (u64::MAX - 99, "-100"),
            (u64::MAX - 999_998, "-999999"),
            (u64::MAX - 999_999, "0xFFFFFFFFFFF0BDC0"),
            (1 << 63, "0x8000000000000000"),
        ] {
            let mut moment = start(0);
            moment.seen.tval = Reading::Value(value);
            assert_eq!(tval(&moment), told);
        }
        let mut moment = start(0);
        assert_eq!(tval(&moment), "?");
        moment.seen.virtual_count = Reading::Refused;
        assert_eq!(virtual_count(&moment), "-");
    }

    #[test]
    fn timers_that_do_nothing_are_not_drawn() {
        let first = start(5);
        assert_eq!(drawn(std::slice::from_ref(&first)), [CNTV]);
        let up = turn(&first, 6, &[0]);
        let mut on = State::bench();
        on.timers[3].enable = true;
        let on = write(&up, 1, 0, on);
        let mut written = on.seen.state;
        written.timers[5].cval = 7;
        let written = write(&on, 2, 0, written);
        assert_eq!(drawn(&[first, up, on, written]), [0, CNTV, 3, 5]);
        let first = start(5);
        let mut shifted = first.seen.state;
        shifted.cntpoff = 7;
        assert_eq!(drawn(&[write(&first, 1, 0, shifted)]), [CNTV]);
    }

    #[test]
    fn what_is_no_timers_is_told_once_where_a_record_changed_it() {
        let first = start(5);
        let mut state = first.seen.state;
        state.cntvoff = 7;
        state.timers[1].cval = 7;
        let second = write(&first, 1, 0, state);
        state.cntvoff = 8;
        state.cntkctl = 0x301;
        let third = write(&second, 2, 0, state);
        assert_eq!(moved(&third), ["CNTKCTL 0x301", "CNTVOFF 8"]);
        assert_eq!(moved_of(&third, "CNTKCTL"), ["0x301"]);
        let told = moved_beside_timers(&[first, second, third]);
        assert_eq!(told, ["CNTKCTL", "CNTVOFF"]);
    }

    #[test]
    fn a_moment_says_what_brought_it() {
        let first = start(5);
        let up = turn(&first, 6, &[1, 4]);
        let both = turn(&up, 7, &[0, 1]);
        let told = |moment: &Moment, before: &Moment| cause(moment, &before.seen.lines);
        assert_eq!(told(&first, &first), "start");
        assert_eq!(told(&up, &first), "up: CNTV, CNTHPS");
        assert_eq!(told(&both, &up), "up: CNTP, down: CNTHPS");
        let read = write(&up, 1, 0xD53B_E040, up.seen.state);
        assert_eq!(told(&read, &up), "MRS CNTVCT_EL0");
        let other = write(&up, 1, 0xD53B_E000, up.seen.state);
        assert_eq!(told(&other, &up), "WORD 0xD53BE000");
    }
}
