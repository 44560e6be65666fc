//! The twelve readings from the bench, each with its variants.

use reading::{Access, Answer, Reading, State, Timer, TimerName};

const CNTVCT: u32 = 0xD53B_E040;
const CNTV_CTL: u32 = 0xD53B_E320;
const CNTHP_TVAL: u32 = 0xD53C_E200;

/// An access at EL1 and count 1000, as the readings begin.
fn asks(word: u32) -> Access {
    Access {
        word,
        level: 1,
        operand: 0,
        count: 1000,
    }
}

fn answered(state: State, access: Access) -> Answer {
    Reading::new(state).access(&access)
}

fn done(value: u64) -> Answer {
    Answer {
        value,
        ..Answer::default()
    }
}

fn number(number: u8) -> Answer {
    Answer {
        number,
        ..Answer::default()
    }
}

fn cval_after(access: Access) -> u64 {
    let mut reading = Reading::new(State::bench());
    let answer = reading.access(&access);
    assert_eq!((answer.number, answer.value, answer.mask), (0, 0, 0));
    reading.state.timer(TimerName::Cntv).cval
}

#[test]
fn reading_1_the_virtual_count() {
    assert_eq!(answered(State::bench(), asks(CNTVCT)), done(600));
}

#[test]
fn reading_2_the_physical_count_is_trapped() {
    assert_eq!(answered(State::bench(), asks(0xD53B_E020)), number(3));
}

#[test]
fn reading_3_el0_is_trapped_to_el1_and_under_tge_to_el2() {
    let from_el0 = Access {
        level: 0,
        ..asks(CNTVCT)
    };
    let shut = State {
        cntkctl: 0,
        ..State::bench()
    };
    assert_eq!(answered(shut, from_el0), number(2));
    assert_eq!(answered(State { tge: true, ..shut }, from_el0), number(3));
}

#[test]
fn readings_4_to_6_a_tval_write() {
    let writes = |word, operand| Access {
        operand,
        ..asks(word)
    };
    assert_eq!(cval_after(writes(0xD51B_E301, 0xFFFF_FFFF)), 599);
    assert_eq!(cval_after(writes(0xD51B_E301, 0x1_0000_0005)), 605);
    assert_eq!(cval_after(writes(0xD51B_E31F, 77)), 600);
}

#[test]
fn reading_7_status_of_an_enabled_and_masked_timer() {
    for (cval, ctl) in [(599, 7), (600, 7), (601, 3)] {
        let mut state = State::bench();
        *state.timer_mut(TimerName::Cntv) = Timer {
            cval,
            enable: true,
            imask: true,
        };
        assert_eq!(answered(state, asks(CNTV_CTL)), done(ctl), "CVAL {cval}");
    }
}

#[test]
fn reading_8_status_of_a_disabled_timer_is_unknown() {
    let unknown = Answer { mask: 4, ..done(0) };
    assert_eq!(answered(State::bench(), asks(CNTV_CTL)), unknown);
}

#[test]
fn reading_9_the_secure_timer_is_undefined_outside_secure() {
    let from_el2 = Access {
        level: 2,
        ..asks(0xD53C_E400)
    };
    assert_eq!(answered(State::bench(), from_el2), number(1));
}

#[test]
fn reading_10_the_virtual_offset() {
    let from = |level| Access {
        level,
        ..asks(0xD53C_E060)
    };
    assert_eq!(answered(State::bench(), from(2)), done(400));
    assert_eq!(answered(State::bench(), from(1)), number(1));
}

#[test]
fn reading_11_a_negative_timer_value_and_an_unknown_one() {
    let from_el2 = Access {
        level: 2,
        ..asks(CNTHP_TVAL)
    };
    let mut state = State::bench();
    state.timer_mut(TimerName::Cnthp).cval = 900;
    let unknown = Answer {
        mask: u64::MAX,
        ..done(0)
    };
    assert_eq!(answered(state, from_el2), unknown);
    state.timer_mut(TimerName::Cnthp).enable = true;
    assert_eq!(answered(state, from_el2), done(0xFFFF_FFFF_FFFF_FF9C));
}

#[test]
fn reading_12_the_count_wraps_and_e2h_sees_it_whole() {
    let early = Access {
        count: 5,
        ..asks(CNTVCT)
    };
    assert_eq!(answered(State::bench(), early), done(0xFFFF_FFFF_FFFF_FE75));
    let with_e2h = State {
        e2h: true,
        ..State::bench()
    };
    let from_el2 = Access {
        level: 2,
        ..asks(CNTVCT)
    };
    assert_eq!(answered(with_e2h, from_el2), done(1000));
    assert_eq!(answered(State::bench(), asks(0xD53B_E000)), number(4));
}
