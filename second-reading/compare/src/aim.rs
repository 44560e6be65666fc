//! What an access most likely reaches, and counts aimed at the moment a timer is met, which chance
//! alone seldom hits.

use reading::{ControlName, Instruction, Register, State, TimerName};

use crate::dice::Dice;

/// A count at, just before or just after the moment the timer is met.
pub(crate) fn due(dice: &mut Dice, state: &State, timer: TimerName) -> u64 {
    let offset = match timer {
        TimerName::Cntv => state.cntvoff,
        TimerName::Cntp if likely_offset_on(state) => dice.pick(&[state.cntpoff, state.cntpoff, 0]),
        TimerName::Cntp => dice.pick(&[0, 0, state.cntpoff]),
        TimerName::Cnthp | TimerName::Cnthv | TimerName::Cnthps | TimerName::Cnthvs => {
            if dice.percent(10) {
                state.cntvoff
            } else {
                0
            }
        }
    };
    let met_at = state.timer(timer).cval.wrapping_add(offset);
    met_at.wrapping_add(dice.below(3)).wrapping_sub(1)
}

fn likely_offset_on(state: &State) -> bool {
    state.ecv && state.ecven && state.cnthctl >> 12 & 1 == 1
}

/// The timer an access most likely reaches. It only guides the choice of a count.
pub(crate) fn likely_timer(
    state: &State,
    instruction: Instruction,
    level: u8,
) -> Option<TimerName> {
    use Register::*;
    let redirected = state.e2h && (level == 2 || level == 0 && state.tge);
    match (instruction.register, redirected, state.ns) {
        (Cntp(_), false, _) => Some(TimerName::Cntp),
        (Cntp(_), true, true) => Some(TimerName::Cnthp),
        (Cntp(_), true, false) => Some(TimerName::Cnthps),
        (Cntv(_), false, _) => Some(TimerName::Cntv),
        (Cntv(_), true, true) => Some(TimerName::Cnthv),
        (Cntv(_), true, false) => Some(TimerName::Cnthvs),
        (Cnthp(_), ..) => Some(TimerName::Cnthp),
        (Cnthvs(_), ..) => Some(TimerName::Cnthvs),
        (Cntpct | Cntvct | Cntpctss | Cntvctss, ..) => None,
        (Cntvoff | Cntkctl | Cnthctl | Cntpoff, ..) => None,
    }
}

/// The control register that an access most likely reaches. It only guides the choice of an
/// operand.
pub(crate) fn likely_control(state: &State, register: Register, level: u8) -> Option<ControlName> {
    match register {
        Register::Cntkctl if state.e2h && level == 2 => Some(ControlName::Cnthctl),
        Register::Cntkctl => Some(ControlName::Cntkctl),
        Register::Cnthctl => Some(ControlName::Cnthctl),
        _ => None,
    }
}
