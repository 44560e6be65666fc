//! The rules that the readings from the bench do not touch.

mod common;

use common::Bench;
use reading::{Access, Direction, Instruction, Part, Reading, Register, State, TimerName};

/// A guest with its own physical offset: offset on, all gates open.
fn with_offset() -> State {
    State {
        ecv: true,
        ecven: true,
        cnthctl: 1 << 12 | 3,
        cntpoff: 100,
        ..State::bench()
    }
}

fn host(ns: bool) -> State {
    State {
        ns,
        eel2: true,
        e2h: true,
        tge: true,
        cnthctl: 0x303,
        ..State::bench()
    }
}

#[test]
fn cntpoff_counts_below_el2_and_status_follows_the_house_rule_everywhere() {
    let mut bench = Bench::of(with_offset());
    bench.write(Register::Cntp(Part::Ctl), 1, 1, 0);
    bench.write(Register::Cntp(Part::Tval), 1, 50, 1000);
    assert_eq!(bench.reading.state.timer(TimerName::Cntp).cval, 950);
    assert_eq!(bench.read(Register::Cntpct, 0, 1000).value, 900);
    assert_eq!(bench.read(Register::Cntp(Part::Tval), 0, 1000).value, 50);
    for level in [2, 3] {
        assert_eq!(bench.read(Register::Cntpct, level, 1000).value, 1000);
        assert_eq!(
            bench.read(Register::Cntp(Part::Tval), level, 1000).value as i64,
            -50
        );
        assert_eq!(bench.read(Register::Cntp(Part::Ctl), level, 1049).value, 1);
        assert_eq!(bench.read(Register::Cntp(Part::Ctl), level, 1050).value, 5);
    }
    assert_eq!(bench.reading.lines(1049).raised, 0);
    assert_eq!(bench.reading.lines(1050).raised, 1);
}

#[test]
fn a_host_is_redirected_by_its_security() {
    for (ns, physical, virtual_timer) in [
        (true, TimerName::Cnthp, TimerName::Cnthv),
        (false, TimerName::Cnthps, TimerName::Cnthvs),
    ] {
        for level in [0, 2] {
            let mut bench = Bench::of(host(ns));
            bench.write(Register::Cntp(Part::Cval), level, 11, 0);
            bench.write(Register::Cntv(Part::Tval), level, 12, 5);
            let state = bench.reading.state;
            assert_eq!(state.timer(physical).cval, 11);
            assert_eq!(state.timer(virtual_timer).cval, 17);
            let moved = state.timers.iter().filter(|t| t.cval != 0).count();
            assert_eq!(moved, 2, "no other timer moves");
        }
    }
}

#[test]
fn cntvoff_counts_where_el2_is_not_on() {
    let mut bench = Bench::of(State {
        ns: false,
        ..State::bench()
    });
    assert_eq!(bench.read(Register::Cntvct, 1, 1000).value, 600);
    assert_eq!(bench.read(Register::Cntvct, 3, 1000).value, 600);
    bench.write(Register::Cntv(Part::Tval), 1, 0, 1000);
    assert_eq!(bench.reading.state.timer(TimerName::Cntv).cval, 600);
}

#[test]
fn the_count_is_compared_unsigned() {
    let mut bench = Bench::of(State::bench());
    bench.write(Register::Cntv(Part::Ctl), 1, 1, 0);
    bench.write(Register::Cntv(Part::Cval), 1, 1 << 63, 0);
    assert_eq!(bench.read(Register::Cntv(Part::Ctl), 1, 400).value, 1);
    assert_eq!(bench.read(Register::Cntv(Part::Ctl), 1, 399).value, 5);
}

#[test]
fn self_synchronized_counters_need_ecv_and_no_counter_is_written() {
    let mut bench = Bench::of(State::bench());
    assert_eq!(bench.read(Register::Cntvctss, 1, 1000).number, 1);
    let mut with_ecv = Bench::of(with_offset());
    assert_eq!(with_ecv.read(Register::Cntvctss, 1, 1000).value, 600);
    assert_eq!(with_ecv.read(Register::Cntpctss, 1, 1000).value, 900);
    for register in [
        Register::Cntpct,
        Register::Cntvct,
        Register::Cntpctss,
        Register::Cntvctss,
    ] {
        assert_eq!(with_ecv.write(register, 3, 1, 1000).number, 1);
    }
}

#[test]
fn rt_31_reads_like_any_other_and_writes_zero() {
    let rt_31 = |direction, register| Access {
        word: Instruction {
            direction,
            register,
            rt: 31,
        }
        .word(),
        level: 2,
        operand: 77,
        count: 1000,
    };
    let mut reading = Reading::new(State::bench());
    let read = reading.access(&rt_31(Direction::Mrs, Register::Cntvoff));
    assert_eq!((read.number, read.rt, read.value), (0, 31, 400));
    let written = reading.access(&rt_31(Direction::Msr, Register::Cntvoff));
    assert_eq!((written.number, written.rt, written.value), (0, 31, 0));
    assert_eq!(reading.state.cntvoff, 0);
}

#[test]
fn a_write_changes_one_register_and_answers_zero() {
    let mut bench = Bench::of(State::bench());
    let answer = bench.write(Register::Cnthp(Part::Ctl), 3, u64::MAX, 7);
    assert_eq!(
        (answer.number, answer.rt, answer.value, answer.mask),
        (0, 9, 0, 0)
    );
    let mut expected = State::bench();
    expected.timer_mut(TimerName::Cnthp).enable = true;
    expected.timer_mut(TimerName::Cnthp).imask = true;
    assert_eq!(bench.reading.state, expected);
}

#[test]
fn a_masked_timer_raises_no_line() {
    let mut state = State::bench();
    for timer in &mut state.timers {
        timer.enable = true;
    }
    assert_eq!(Reading::new(state).lines(1000).raised, 0b11_1111);
    state.timer_mut(TimerName::Cnthv).imask = true;
    assert_eq!(Reading::new(state).lines(1000).raised, 0b11_0111);
    state.timer_mut(TimerName::Cntv).cval = 601;
    assert_eq!(Reading::new(state).lines(1000).raised, 0b11_0101);
}

#[test]
fn the_secure_virtual_timer_needs_its_features_and_eel2() {
    let secure = State {
        ns: false,
        eel2: true,
        ..State::bench()
    };
    let number = |state, level| {
        Bench::of(state)
            .read(Register::Cnthvs(Part::Cval), level, 0)
            .number
    };
    assert_eq!(
        [0, 1, 2, 3].map(|level| number(secure, level)),
        [1, 1, 0, 0]
    );
    let without_vhe = State {
        vhe: false,
        ..secure
    };
    assert_eq!([2, 3].map(|level| number(without_vhe, level)), [1, 1]);
    let not_secure = State { ns: true, ..secure };
    assert_eq!([2, 3].map(|level| number(not_secure, level)), [1, 0]);
    let without_eel2 = State {
        eel2: false,
        ..secure
    };
    assert_eq!(number(without_eel2, 3), 1);
}
