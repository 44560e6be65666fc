//! `cost`: what a call of the linked library costs on this machine, and beside it, as a yardstick,
//! the same call through the second reading. Short rounds, one of each in turn, so that what slows
//! the machine slows both; of all rounds the least and the median.

use std::hint::black_box;
use std::time::Instant;

use elsterkabel::{Controls, Features, State, RECORD_BYTES, RECORD_LIMIT};
use reading::{Reading, Record};

const ROUNDS: usize = 1_001;
const CALLS: u64 = 500;
const RECORDS: u64 = RECORD_LIMIT as u64;

struct Asked {
    what: &'static str,
    word: u32,
    level: u8,
}

const ASKED: [Asked; 9] = [
    asked("MRS CNTVCT_EL0 at EL1, done", 0xD53B_E040, 1),
    asked("MRS CNTV_CTL_EL0 at EL1, done", 0xD53B_E320, 1),
    asked("MSR CNTV_TVAL_EL0 at EL1, done", 0xD51B_E301, 1),
    asked("MRS CNTPCT_EL0 at EL1, trap to EL2", 0xD53B_E020, 1),
    asked("MRS CNTVCT_EL0 at EL0, done", 0xD53B_E040, 0),
    asked("MSR CNTHP_CVAL_EL2 at EL2, done", 0xD51C_E241, 2),
    asked("MSR CNTKCTL_EL1 at EL1, done", 0xD518_E101, 1),
    asked("MRS CNTHVS_CVAL_EL2 at EL1, Undefined", 0xD53C_E440, 1),
    asked("no timer access", 0xD503_201F, 1),
];

const fn asked(what: &'static str, word: u32, level: u8) -> Asked {
    Asked { what, word, level }
}

/// The state in which the readings begin, for the library.
fn bench() -> State {
    State {
        features: Features {
            vhe: true,
            sel2: true,
            ..Features::default()
        },
        controls: Controls {
            ns: true,
            cntkctl: 0x303,
            ..Controls::default()
        },
        cntvoff: 400,
        ..State::default()
    }
}

/// Nanoseconds, as many as there are rounds.
struct Cost(Vec<f64>);

impl Cost {
    fn new() -> Cost {
        Cost(Vec::with_capacity(ROUNDS))
    }

    /// One round more, in which as many things are done as each call does.
    fn round(&mut self, calls: u64, each: u64, call: &mut impl FnMut(u64)) {
        let begun = Instant::now();
        for count in 0..calls {
            call(count);
        }
        let taken = begun.elapsed().as_nanos() as f64;
        self.0.push(taken / (calls * each) as f64);
    }

    fn sort(&mut self) {
        self.0.sort_by(f64::total_cmp);
    }

    fn least(&self) -> f64 {
        self.0[0]
    }

    fn median(&self) -> f64 {
        self.0[ROUNDS / 2]
    }
}

/// One line of the table: `calls` calls a round, of which each does `each` things.
fn side_by_side(
    what: &str,
    (calls, each): (u64, u64),
    mut library: impl FnMut(u64),
    mut yardstick: impl FnMut(u64),
) {
    let (mut ours, mut theirs) = (Cost::new(), Cost::new());
    for _ in 0..ROUNDS {
        ours.round(calls, each, &mut library);
        theirs.round(calls, each, &mut yardstick);
    }
    ours.sort();
    theirs.sort();
    println!(
        "{:8.1}{:8.1}{:10.1}{:8.1}{:8.3}  {what}",
        ours.least(),
        ours.median(),
        theirs.least(),
        theirs.median(),
        ours.median() / theirs.median()
    );
}

fn one_access(asked: &Asked) {
    let &Asked { what, word, level } = asked;
    let operand = 50;
    let (mut state, mut reading) = (bench(), Reading::new(reading::State::bench()));
    side_by_side(
        what,
        (CALLS, 1),
        |count| {
            black_box(state.access(elsterkabel::Access {
                word,
                level,
                operand,
                count,
            }));
        },
        |count| {
            black_box(reading.access(&reading::Access {
                word,
                level,
                operand,
                count,
            }));
        },
    );
}

fn the_lines() {
    let (state, mut reading) = (bench(), Reading::new(reading::State::bench()));
    side_by_side(
        "the lines question",
        (CALLS, 1),
        |count| {
            black_box(state.lines(count));
        },
        |count| {
            black_box(reading.lines(count));
        },
    );
}

fn a_record(asked: &Asked) {
    let record = Record {
        access: reading::Access {
            word: asked.word,
            level: asked.level,
            ..reading::Access::default()
        },
        ..Record::default()
    };
    let journal = record.pack().repeat(RECORD_LIMIT);
    let mut answers = vec![0; RECORD_LIMIT * RECORD_BYTES];
    let mut again = answers.clone();
    let (mut state, mut reading) = (bench(), Reading::new(reading::State::bench()));
    side_by_side(
        &format!("a record of a full journal: {}", asked.what),
        (1, RECORDS),
        |_| {
            black_box(state.run(&journal, &mut answers));
        },
        |_| {
            black_box(reading.run(&journal, &mut again));
        },
    );
}

fn main() {
    println!("ns a call of the library, of the second reading, and the ratio of the medians");
    println!("   least  median     least  median");
    ASKED.iter().for_each(one_access);
    the_lines();
    a_record(&ASKED[0]);
}
