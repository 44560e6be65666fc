//! Document 01, 'The machine we model': its state.

use crate::listed::listed;

listed! {
    /// An exception level that exists.
    pub enum Level {
        El0,
        El1,
        El2,
        El3,
    }
}

impl Level {
    /// The level of that number, if there is one.
    pub fn of(number: u8) -> Option<Level> {
        Level::ALL.get(usize::from(number)).copied()
    }
}

listed! {
    /// The six timers, in the paper's order.
    pub enum TimerName {
        Cntp,
        Cntv,
        Cnthp,
        Cnthv,
        Cnthps,
        Cnthvs,
    }
}

impl TimerName {
    pub fn name(self) -> &'static str {
        match self {
            TimerName::Cntp => "CNTP",
            TimerName::Cntv => "CNTV",
            TimerName::Cnthp => "CNTHP",
            TimerName::Cnthv => "CNTHV",
            TimerName::Cnthps => "CNTHPS",
            TimerName::Cnthvs => "CNTHVS",
        }
    }
}

listed! {
    /// The two registers of control bits.
    pub enum ControlName {
        Cntkctl,
        Cnthctl,
    }
}

impl ControlName {
    pub fn name(self) -> &'static str {
        match self {
            ControlName::Cntkctl => "CNTKCTL",
            ControlName::Cnthctl => "CNTHCTL",
        }
    }
}

/// One timer's registers.
#[derive(Clone, Copy, Debug, Default, PartialEq, Eq)]
pub struct Timer {
    pub cval: u64,
    pub enable: bool,
    pub imask: bool,
}

/// The whole state. The level and the physical count come with each access.
#[derive(Clone, Copy, Debug, Default, PartialEq, Eq)]
pub struct State {
    pub vhe: bool,
    pub sel2: bool,
    pub ecv: bool,
    pub ns: bool,
    pub eel2: bool,
    pub ecven: bool,
    pub e2h: bool,
    pub tge: bool,
    pub cntkctl: u32,
    pub cnthctl: u32,
    pub cntvoff: u64,
    pub cntpoff: u64,
    pub timers: [Timer; TimerName::ALL.len()],
}

impl State {
    /// The state the readings from the bench begin in.
    pub fn bench() -> State {
        State {
            vhe: true,
            sel2: true,
            ns: true,
            cntkctl: 0x303,
            cntvoff: 400,
            ..State::default()
        }
    }

    pub fn control(&self, name: ControlName) -> u32 {
        match name {
            ControlName::Cntkctl => self.cntkctl,
            ControlName::Cnthctl => self.cnthctl,
        }
    }

    pub fn control_mut(&mut self, name: ControlName) -> &mut u32 {
        match name {
            ControlName::Cntkctl => &mut self.cntkctl,
            ControlName::Cnthctl => &mut self.cnthctl,
        }
    }

    pub fn timer(&self, name: TimerName) -> &Timer {
        &self.timers[name as usize]
    }

    pub fn timer_mut(&mut self, name: TimerName) -> &mut Timer {
        &mut self.timers[name as usize]
    }
}
