//! Start states: possible ones mostly, impossible ones by one fact or by many.

use reading::{AsWritten, ControlName, Paper, State, Timer};

use crate::controls::permitting;
use crate::dice::Dice;
use crate::numbers::Numbers;

pub(crate) fn any_state(dice: &mut Dice, numbers: &mut Numbers) -> State {
    let mut state = possible_state(dice);
    match dice.below(100) {
        0..=9 => make_impossible(dice, &mut state),
        10..=11 => scramble(dice, &mut state),
        _ => {}
    }
    fill(dice, numbers, &mut state);
    state
}

/// The four facts that choose the rules are drawn evenly; a feature is there if they need it
/// and most often otherwise.
fn possible_state(dice: &mut Dice) -> State {
    let facts = dice.below(16);
    let fact = |place: u64| facts >> place & 1 == 1;
    let (ns, eel2, e2h, tge) = (fact(0), fact(1), fact(2), fact(3));
    let ecv = dice.percent(75);
    State {
        ns,
        eel2,
        e2h,
        tge,
        ecv,
        sel2: eel2 || dice.percent(70),
        vhe: e2h || dice.percent(70),
        ecven: ecv && dice.percent(70),
        cntkctl: permitting(dice, ControlName::Cntkctl),
        cnthctl: cnthctl(dice, ecv),
        ..State::default()
    }
}

fn cnthctl(dice: &mut Dice, ecv: bool) -> u32 {
    let permitting = permitting(dice, ControlName::Cnthctl);
    if ecv {
        permitting
    } else {
        permitting & !AsWritten.bits_with_ecv()
    }
}

/// Breaks the state on one ground of refusal 5.
fn make_impossible(dice: &mut Dice, state: &mut State) {
    match dice.below(4) {
        0 => (state.e2h, state.vhe) = (true, false),
        1 => (state.eel2, state.sel2) = (true, false),
        2 => (state.ecven, state.ecv, state.cnthctl) = (true, false, state.cnthctl & !0x7000),
        _ => {
            let bit = 1 << (12 + dice.below(3));
            (state.ecven, state.ecv, state.cnthctl) = (false, false, state.cnthctl & !0x7000 | bit);
        }
    }
}

fn scramble(dice: &mut Dice, state: &mut State) {
    for fact in [
        &mut state.vhe,
        &mut state.sel2,
        &mut state.ecv,
        &mut state.ecven,
    ] {
        *fact = dice.percent(50);
    }
    state.cntkctl = dice.any() as u32;
    state.cnthctl = dice.any() as u32;
}

fn fill(dice: &mut Dice, numbers: &mut Numbers, state: &mut State) {
    for offset in [&mut state.cntvoff, &mut state.cntpoff] {
        *offset = numbers.any(dice);
        numbers.remember(dice, *offset);
    }
    for timer in &mut state.timers {
        *timer = Timer {
            cval: numbers.any(dice),
            enable: dice.percent(60),
            imask: dice.percent(40),
        };
        numbers.remember(dice, timer.cval);
    }
}
