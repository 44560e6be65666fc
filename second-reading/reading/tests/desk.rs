//! Refusals, their order, and the edges of the journal.

use reading::{Access, Answer, Reading, Record, State, RECORD_BYTES, RECORD_LIMIT};

const CNTVCT: u32 = 0xD53B_E040;
const NO_NAME: u32 = 0xD53B_E000;

fn number(state: State, word: u32, level: u8) -> u8 {
    let access = Access {
        word,
        level,
        ..Access::default()
    };
    let mut reading = Reading::new(state);
    let answer = reading.access(&access);
    assert_eq!((answer.value, answer.mask), (0, 0));
    assert_eq!(reading.state, state, "a refusal changes nothing");
    answer.number
}

fn run_of(journal: &[u8]) -> (u8, Vec<u8>) {
    let mut answers = vec![0xEE; journal.len() + 5];
    let number = Reading::new(State::bench()).run(journal, &mut answers);
    (number, answers)
}

fn reserved(word: u32, reserved: u32) -> Record {
    Record {
        access: Access {
            word,
            level: 1,
            operand: 0,
            count: 1000,
        },
        reserved,
    }
}

fn first_number(state: State, record: Record) -> u8 {
    let mut answers = [0; RECORD_BYTES];
    assert_eq!(Reading::new(state).run(&record.pack(), &mut answers), 0);
    let answer = Answer::unpack(&answers);
    let number_alone = Answer {
        number: answer.number,
        ..Answer::default()
    };
    assert_eq!(answer, number_alone, "Rt, value and mask 0 in a refusal");
    answer.number
}

#[test]
fn each_ground_of_5_refuses() {
    let bench = State::bench();
    let grounds = [
        (bench, 4),
        (bench, 255),
        (
            State {
                vhe: false,
                e2h: true,
                ..bench
            },
            0,
        ),
        (
            State {
                sel2: false,
                eel2: true,
                ..bench
            },
            0,
        ),
        (
            State {
                ecven: true,
                ..bench
            },
            0,
        ),
        (
            State {
                cnthctl: 1 << 12,
                ..bench
            },
            0,
        ),
        (
            State {
                cnthctl: 1 << 13,
                ..bench
            },
            0,
        ),
        (
            State {
                cnthctl: 1 << 14,
                ..bench
            },
            0,
        ),
        (State { ns: false, ..bench }, 2),
        (State { tge: true, ..bench }, 1),
    ];
    for (state, level) in grounds {
        assert_eq!(number(state, 0xD51B_E240, level), 5, "{state:?} EL{level}");
    }
}

#[test]
fn what_is_next_to_a_ground_of_5_is_possible() {
    let bench = State::bench();
    let open = State {
        cntkctl: 0x303,
        cnthctl: 0x803,
        ..bench
    };
    let possible = [
        (State { e2h: true, ..open }, 0),
        (State { eel2: true, ..open }, 0),
        (
            State {
                ecv: true,
                ecven: true,
                cnthctl: 0x7803,
                ..open
            },
            3,
        ),
        (
            State {
                cnthctl: 0x8803,
                ..open
            },
            0,
        ),
        (
            State {
                ns: false,
                eel2: true,
                ..open
            },
            2,
        ),
        (
            State {
                ns: false,
                tge: true,
                ..open
            },
            1,
        ),
        (State { tge: true, ..open }, 0),
        (open, 3),
    ];
    for (state, level) in possible {
        let mut reading = Reading::new(state);
        let access = Access {
            word: CNTVCT,
            level,
            ..Access::default()
        };
        assert_ne!(reading.access(&access).number, 5, "{state:?} EL{level}");
    }
}

#[test]
fn the_lines_question_is_refused_on_the_grounds_without_a_level() {
    let bench = State::bench();
    let refused = [
        State {
            vhe: false,
            e2h: true,
            ..bench
        },
        State {
            sel2: false,
            eel2: true,
            ..bench
        },
        State {
            ecven: true,
            ..bench
        },
        State {
            cnthctl: 1 << 13,
            ..bench
        },
    ];
    for mut state in refused {
        state.timers[0].enable = true;
        let lines = Reading::new(state).lines(0);
        assert_eq!((lines.number, lines.raised), (5, 0), "{state:?}");
    }
    let tge = State { tge: true, ..bench };
    assert_eq!(Reading::new(tge).lines(0).number, 0);
}

#[test]
fn refusal_6_comes_before_4_and_4_before_5() {
    let impossible = State {
        ecven: true,
        ..State::bench()
    };
    assert_eq!(first_number(impossible, reserved(NO_NAME, 1)), 6);
    assert_eq!(first_number(impossible, reserved(CNTVCT, 1 << 29)), 6);
    assert_eq!(first_number(impossible, reserved(NO_NAME, 0)), 4);
    assert_eq!(first_number(impossible, reserved(CNTVCT, 0)), 5);
}

#[test]
fn the_example_journal_gives_the_example_answers() {
    let record = |word: u32| {
        let mut bytes = word.to_be_bytes().to_vec();
        bytes.extend([0x40, 0, 0, 0]);
        bytes.extend([0; 8]);
        bytes.extend([0, 0, 0, 0, 0, 0, 0x03, 0xE8]);
        bytes
    };
    let journal = [record(0xD53B_E040), record(0xD53B_E020)].concat();
    let mut expected = vec![0; 48];
    expected[14..16].copy_from_slice(&[0x02, 0x58]);
    expected[24] = 0x30;
    let (number, answers) = run_of(&journal);
    assert_eq!(number, 0);
    assert_eq!(answers[..48], expected);
    assert_eq!(answers[48..], [0xEE; 5], "bytes after the last answer stay");
}

#[test]
fn a_refused_record_does_not_stop_the_run() {
    let journal = [reserved(NO_NAME, 0), reserved(CNTVCT, 0)].map(|r| r.pack());
    let (number, answers) = run_of(journal.as_flattened());
    assert_eq!((number, answers[0]), (0, 0x40));
    assert_eq!(answers[38..40], 600u16.to_be_bytes());
}

#[test]
fn the_edges_of_the_journal() {
    assert_eq!((RECORD_BYTES, RECORD_LIMIT), (24, 1024));
    for (length, number) in [
        (0, 0),
        (1, 7),
        (RECORD_BYTES - 1, 7),
        (RECORD_BYTES, 0),
        (RECORD_BYTES + 1, 7),
        (RECORD_LIMIT * RECORD_BYTES, 0),
        (RECORD_LIMIT * RECORD_BYTES + 1, 7),
        ((RECORD_LIMIT + 1) * RECORD_BYTES, 7),
    ] {
        let (found, answers) = run_of(&vec![0; length]);
        assert_eq!(found, number, "{length} bytes");
        let untouched = answers.iter().all(|&byte| byte == 0xEE);
        assert_eq!(untouched, number == 7 || length == 0, "{length} bytes");
    }
}

#[test]
fn a_short_buffer_is_refused_with_8_and_stays() {
    let journal = [0; 2 * RECORD_BYTES];
    for length in [0, RECORD_BYTES, journal.len() - 1] {
        let mut answers = vec![0xEE; length];
        let number = Reading::new(State::bench()).run(&journal, &mut answers);
        assert_eq!(number, 8);
        assert!(answers.iter().all(|&byte| byte == 0xEE));
    }
    let mut none = [];
    assert_eq!(
        Reading::new(State::bench()).run(&[0; RECORD_BYTES + 1], &mut none),
        7,
        "7 before 8"
    );
}
