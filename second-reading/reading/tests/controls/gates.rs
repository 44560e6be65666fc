//! Who may touch CNTKCTL, CNTHCTL and CNTPOFF, and which register an access reaches.

use reading::Register::{Cnthctl, Cntkctl, Cntpoff};
use reading::{Answer, Direction, Reading, Register, State};

use crate::common::{Bench, RT};
use crate::{answers, record, with_e2h, with_ecv, words};

/// Every combination of the features and facts, with every gate shut and with every gate open, that
/// 5 leaves to EL1.
fn possible_at_el1() -> Vec<State> {
    let mut states = Vec::new();
    for facts in 0..256 {
        let open = with_facts(facts, 0x303, 0xF03);
        let traps = if open.ecv { 0x7000 } else { 0 };
        states.extend([open, with_facts(facts, 0, traps)]);
    }
    states.retain(|state| {
        let el2_on = state.ns || (state.sel2 && state.eel2);
        let features = (state.vhe || !state.e2h) && (state.sel2 || !state.eel2);
        features && (state.ecv || !state.ecven) && !(el2_on && state.tge)
    });
    states
}

fn with_facts(facts: u32, cntkctl: u32, cnthctl: u32) -> State {
    let fact = |place: u32| facts >> place & 1 == 1;
    State {
        vhe: fact(0),
        sel2: fact(1),
        ecv: fact(2),
        ns: fact(3),
        eel2: fact(4),
        ecven: fact(5),
        e2h: fact(6),
        tge: fact(7),
        cntkctl,
        cnthctl,
        ..State::default()
    }
}

/// The numbers at EL0 to EL3, where neither a refusal nor a trap changes anything.
fn numbers(state: State, register: Register, direction: Direction) -> [u8; 4] {
    [0, 1, 2, 3].map(|level| {
        let mut bench = Bench::of(state);
        let answer = bench.ask(direction, register, level, 5, 0);
        if answer.number != 0 {
            assert_eq!(answer, Answer::number(answer.number, RT));
            assert_eq!(bench.reading.state, state);
        }
        answer.number
    })
}

#[test]
fn the_gates_of_cntkctl() {
    for state in [with_e2h(false), with_e2h(true), with_ecv(false)] {
        for direction in Direction::ALL {
            assert_eq!(numbers(state, Cntkctl, direction), [1, 0, 0, 0]);
        }
    }
}

#[test]
fn the_gates_of_cnthctl() {
    for state in [with_e2h(false), with_e2h(true), with_ecv(false)] {
        for direction in Direction::ALL {
            assert_eq!(numbers(state, Cnthctl, direction), [1, 1, 0, 0]);
        }
    }
}

#[test]
fn the_gates_of_cntpoff() {
    for direction in Direction::ALL {
        let numbers = |state| numbers(state, Cntpoff, direction);
        assert_eq!(numbers(State::bench()), [1, 1, 1, 1], "without ECV");
        assert_eq!(numbers(with_ecv(false)), [1, 1, 10, 0], "ECVEn 0");
        assert_eq!(numbers(with_ecv(true)), [1, 1, 0, 0], "ECVEn 1");
    }
}

#[test]
fn cntkctl_at_el1_is_never_trapped() {
    for state in possible_at_el1() {
        let mut bench = Bench::of(state);
        let held = u64::from(state.cntkctl);
        let read = bench.read(Cntkctl, 1, 0);
        assert_eq!((read.number, read.value), (0, held), "{state:?}");
        assert_eq!(bench.write(Cntkctl, 1, 0x201, 0).number, 0, "{state:?}");
        let cntkctl = 0x201;
        assert_eq!(bench.reading.state, State { cntkctl, ..state });
    }
}

#[test]
fn at_el2_with_e2h_1_cntkctl_is_cnthctl() {
    let before = with_e2h(true);
    let mut bench = Bench::of(before);
    assert_eq!(bench.read(Cntkctl, 2, 0).value, 0x802);
    assert_eq!(bench.write(Cntkctl, 2, 0xC01, 0), Answer::number(0, RT));
    let cnthctl = 0xC01;
    assert_eq!(bench.reading.state, State { cnthctl, ..before });
}

#[test]
fn elsewhere_cntkctl_is_itself() {
    for (e2h, level) in [(false, 1), (false, 2), (false, 3), (true, 1), (true, 3)] {
        let before = with_e2h(e2h);
        let mut bench = Bench::of(before);
        let read = bench.read(Cntkctl, level, 0).value;
        assert_eq!(read, 0x101, "E2H {e2h} EL{level}");
        bench.write(Cntkctl, level, 0x202, 0);
        let after = State {
            cntkctl: 0x202,
            ..before
        };
        assert_eq!(bench.reading.state, after, "E2H {e2h} EL{level}");
    }
}

#[test]
fn cnthctl_is_itself_whatever_e2h_is() {
    for (e2h, level) in [(false, 2), (false, 3), (true, 2), (true, 3)] {
        let before = with_e2h(e2h);
        let mut bench = Bench::of(before);
        assert_eq!(bench.read(Cnthctl, level, 0).value, 0x802);
        bench.write(Cnthctl, level, 1, 0);
        let cnthctl = 1;
        assert_eq!(bench.reading.state, State { cnthctl, ..before });
    }
}

#[test]
fn number_10_is_answered_like_2() {
    for word in [words::CNTPOFF_READ, words::CNTPOFF_WRITTEN] {
        let trapped = record(word | 21, 2, 77);
        let mut answer = [0xEE; 24];
        let mut reading = Reading::new(with_ecv(false));
        assert_eq!(reading.run(&trapped.pack(), &mut answer), 0);
        // 1010 for the number, 10101 for Rt, and zeros.
        assert_eq!(answer[..2], [0b1010_1010, 0b1000_0000]);
        assert_eq!(answer[2..], [0; 22]);
        assert_eq!(reading.state, with_ecv(false));
    }
}

#[test]
fn the_words_have_their_names_and_cntkctl_el12_has_none() {
    let state = State {
        cnthctl: 0x1003,
        ..with_ecv(true)
    };
    let value = |word| {
        let [answer] = answers(state, &[record(word | 1, 2, 0)])[..] else {
            panic!("one answer to one record");
        };
        (answer.number, answer.rt, answer.value)
    };
    assert_eq!(value(words::CNTKCTL_READ), (0, 1, 0x303));
    assert_eq!(value(words::CNTHCTL_READ), (0, 1, 0x1003));
    assert_eq!(value(words::CNTPOFF_READ), (0, 1, 100));
    for e2h in [false, true] {
        for level in 0..4 {
            for word in [words::CNTKCTL_EL12_READ, words::CNTKCTL_EL12_WRITTEN] {
                let asked = record(word | 1, level, 0);
                let answer = answers(with_e2h(e2h), &[asked]);
                assert_eq!(answer, [Answer::number(4, 0)]);
            }
        }
    }
}
