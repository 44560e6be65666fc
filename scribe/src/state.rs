//! A timer state.

/// The names of the six timers, in the order in which a state has them.
pub const TIMERS: [&str; 6] = ["CNTP", "CNTV", "CNTHP", "CNTHV", "CNTHPS", "CNTHVS"];

#[derive(Clone, Copy, Debug, Default, PartialEq, Eq)]
pub struct Timer {
    pub cval: u64,
    pub enable: bool,
    pub imask: bool,
}

#[derive(Clone, Copy, Debug, Default, PartialEq, Eq)]
pub struct State {
    pub vhe: bool,
    pub sel2: bool,
    pub ecv: bool,
    pub ns: bool,
    pub eel2: bool,
    pub ecven: bool,
    pub e2h: bool,
    pub tge: bool,
    pub cntkctl: u32,
    pub cnthctl: u32,
    pub cntvoff: u64,
    pub cntpoff: u64,
    pub timers: [Timer; TIMERS.len()],
}

impl State {
    /// The start of the readings from the bench, which `board` starts from.
    pub fn bench() -> State {
        State {
            vhe: true,
            sel2: true,
            ns: true,
            cntkctl: 0x303,
            cntvoff: 400,
            ..State::default()
        }
    }
}
