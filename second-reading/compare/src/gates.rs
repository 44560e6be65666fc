//! The gates that control bits are: what each guards, and who turns it.

use reading::{AsWritten, Control, ControlName, Level, Paper, Part, Register, State};

const CNTPCT: [Register; 2] = [Register::Cntpct, Register::Cntpctss];
const CNTVCT: [Register; 2] = [Register::Cntvct, Register::Cntvctss];

/// The registers and levels whose accesses look at the bit.
pub(crate) fn guarded(control: Control) -> (Vec<Register>, &'static [Level]) {
    use Control::*;
    const EL0: &[Level] = &[Level::El0];
    const EL0_AND_EL1: &[Level] = &[Level::El0, Level::El1];
    let cntp = Part::ALL.map(Register::Cntp).to_vec();
    let cntv = Part::ALL.map(Register::Cntv).to_vec();
    match control {
        CntkctlEl0pcten | CnthctlEl0pcten => (CNTPCT.to_vec(), EL0),
        CntkctlEl0vcten | CnthctlEl0vcten => (CNTVCT.to_vec(), EL0),
        CntkctlEl0vten | CnthctlEl0vten => (cntv, EL0),
        CntkctlEl0pten | CnthctlEl0pten => (cntp, EL0),
        El1pctenE2h0 | El1pctenE2h1 => (CNTPCT.to_vec(), EL0_AND_EL1),
        El1pcen | El1pten => (cntp, EL0_AND_EL1),
        // It guards no register; it switches the offset of these on.
        Ecv => ([&CNTPCT[..], &cntp].concat(), EL0_AND_EL1),
        El1tvt => (cntv, EL0_AND_EL1),
        El1tvct => (CNTVCT.to_vec(), EL0_AND_EL1),
    }
}

/// The names and levels by which a write reaches the register, as far as the state has the level.
pub(crate) fn writers(state: &State, name: ControlName) -> Vec<(Register, Level)> {
    use Level::*;
    use Register::{Cnthctl, Cntkctl};
    let all = match (name, state.e2h) {
        (ControlName::Cntkctl, false) => vec![(Cntkctl, El1), (Cntkctl, El2), (Cntkctl, El3)],
        (ControlName::Cntkctl, true) => vec![(Cntkctl, El1), (Cntkctl, El3)],
        (ControlName::Cnthctl, false) => vec![(Cnthctl, El2), (Cnthctl, El3)],
        (ControlName::Cnthctl, true) => vec![(Cnthctl, El2), (Cntkctl, El2), (Cnthctl, El3)],
    };
    let on = AsWritten.el2_on(state);
    let there = |level| match level {
        El0 | El3 => true,
        El1 => !(on && state.tge),
        El2 => on,
    };
    all.into_iter().filter(|&(_, level)| there(level)).collect()
}

#[cfg(test)]
mod tests {
    use super::*;
    use reading::{Access, Direction, Instruction, Reading};

    #[test]
    fn every_writer_reaches_its_register_and_no_other() {
        for facts in 0..16 {
            let fact = |place: u32| facts >> place & 1 == 1;
            let state = State {
                ns: fact(0),
                eel2: fact(1),
                e2h: fact(2),
                tge: fact(3),
                ..State::bench()
            };
            for name in ControlName::ALL {
                for (register, level) in writers(&state, name) {
                    assert_eq!(after_a_write(state, register, level), with_1(state, name));
                }
            }
        }
    }

    fn after_a_write(state: State, register: Register, level: Level) -> State {
        let mut reading = Reading::new(state);
        let instruction = Instruction {
            direction: Direction::Msr,
            register,
            rt: 0,
        };
        reading.access(&Access {
            word: instruction.word(),
            level: level as u8,
            operand: 1,
            count: 0,
        });
        reading.state
    }

    fn with_1(mut state: State, name: ControlName) -> State {
        *state.control_mut(name) = 1;
        state
    }
}
