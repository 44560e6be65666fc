//! A control bit, or CNTPOFF, taken as it was when the journal began.

use std::cell::Cell;

use reading::{AsWritten, Control, Paper, Reading, State};

use crate::Slip;

pub(crate) fn slips() -> Vec<Slip> {
    let cntpoff = Slip::new(
        "taken as when the journal began: CNTPOFF",
        StaleCntpoff::default(),
    );
    let controls = Control::ALL.iter().copied().map(stale);
    controls.chain([cntpoff]).collect()
}

fn stale(control: Control) -> Slip {
    Slip::new(
        &format!("taken as when the journal began: {control}"),
        StaleControl {
            control,
            start: Start::default(),
        },
    )
}

/// The state in which the journal began.
#[derive(Default)]
struct Start(Cell<State>);

impl Start {
    fn run(&self, reading: &mut Reading, journal: &[u8], answers: &mut [u8]) -> u8 {
        self.0.set(reading.state);
        AsWritten.run(reading, journal, answers)
    }

    fn state(&self) -> State {
        self.0.get()
    }
}

struct StaleControl {
    control: Control,
    start: Start,
}

impl Paper for StaleControl {
    fn run(&self, reading: &mut Reading, journal: &[u8], answers: &mut [u8]) -> u8 {
        self.start.run(reading, journal, answers)
    }

    fn bit(&self, state: &State, control: Control) -> bool {
        if control == self.control {
            AsWritten.bit(&self.start.state(), control)
        } else {
            AsWritten.bit(state, control)
        }
    }
}

#[derive(Default)]
struct StaleCntpoff(Start);

impl Paper for StaleCntpoff {
    fn run(&self, reading: &mut Reading, journal: &[u8], answers: &mut [u8]) -> u8 {
        self.0.run(reading, journal, answers)
    }

    fn less_cntpoff(&self, _state: &State, physical: u64) -> u64 {
        AsWritten.less_cntpoff(&self.0.state(), physical)
    }
}
