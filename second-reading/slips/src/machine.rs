//! Slips in the words of 'The machine we model', in a ground of 5 and in the timers that E2H
//! redirects to.

use reading::{AsWritten, Control, Paper, Register, State, TimerName};

use crate::Slip;

pub(crate) fn slips() -> Vec<Slip> {
    vec![
        Slip::new("EL2 on only when NS is 1", SecureEl2Forgotten),
        Slip::new("offset on without ECVEn", OffsetWithoutEcven),
        Slip::new("offset on without CNTHCTL.ECV", OffsetWithoutCnthctl),
        Slip::new("offset on for the host too", OffsetForHost),
        Slip::new("CNTHCTL bit 14 allowed without ECV", Bit14NeedsNoEcv),
        Slip::new("CNTHPS and CNTHP swapped", PhysicalRedirectionsSwapped),
        Slip::new("CNTHVS and CNTHV swapped", VirtualRedirectionsSwapped),
    ]
}

struct SecureEl2Forgotten;

impl Paper for SecureEl2Forgotten {
    fn el2_on(&self, state: &State) -> bool {
        state.ns
    }
}

struct OffsetWithoutEcven;

impl Paper for OffsetWithoutEcven {
    fn offset_on(&self, state: &State) -> bool {
        AsWritten.offset_on(&State {
            ecven: true,
            ..*state
        })
    }
}

struct OffsetWithoutCnthctl;

impl Paper for OffsetWithoutCnthctl {
    fn offset_on(&self, state: &State) -> bool {
        AsWritten.offset_on(&State {
            cnthctl: state.cnthctl | 1 << Control::Ecv.place(),
            ..*state
        })
    }
}

struct OffsetForHost;

impl Paper for OffsetForHost {
    fn offset_on(&self, state: &State) -> bool {
        AsWritten.offset_on(&State {
            tge: false,
            ..*state
        })
    }
}

struct Bit14NeedsNoEcv;

impl Paper for Bit14NeedsNoEcv {
    fn bits_with_ecv(&self) -> u32 {
        AsWritten.bits_with_ecv() & !(1 << 14)
    }
}

struct PhysicalRedirectionsSwapped;

impl Paper for PhysicalRedirectionsSwapped {
    fn reached(&self, register: Register, named: TimerName) -> TimerName {
        match (register, named) {
            (Register::Cntp(_), TimerName::Cnthps) => TimerName::Cnthp,
            (Register::Cntp(_), TimerName::Cnthp) => TimerName::Cnthps,
            (_, named) => named,
        }
    }
}

struct VirtualRedirectionsSwapped;

impl Paper for VirtualRedirectionsSwapped {
    fn reached(&self, register: Register, named: TimerName) -> TimerName {
        match (register, named) {
            (Register::Cntv(_), TimerName::Cnthvs) => TimerName::Cnthv,
            (Register::Cntv(_), TimerName::Cnthv) => TimerName::Cnthvs,
            (_, named) => named,
        }
    }
}
