//! A state as the text that packs to it, one register a line.

use crate::control::{bits_of, Bits};
use crate::fields::{arm_name, registers, FieldName};
use crate::state::State;

use super::field::held_in;
use super::COLUMNS;

/// The registers of a state in the order of its image, as Arm calls them, with what they hold.
pub fn state(state: &State) -> Vec<(&'static str, String)> {
    let said = |register| (arm_name(register), held(state, register));
    registers().into_iter().map(said).collect()
}

/// A state as a text.
pub fn state_text(state: &State) -> String {
    let line = |register| {
        let said = format!("{register} = {}", held(state, register));
        with_notes(said, &notes(state, register))
    };
    registers().into_iter().map(line).collect()
}

fn held(state: &State, register: &str) -> String {
    let of_register = state.fields().into_iter();
    let of_register = of_register.filter(|(name, _)| name.register == register);
    let held: Vec<String> = of_register.map(field).collect();
    held.join(", ")
}

fn field((name, value): (FieldName, u64)) -> String {
    match name.part {
        Some(part) => format!("{part} {}", held_in(&name, value)),
        None => held_in(&name, value),
    }
}

/// What a reader would look up: the fields of a control register, and negative numbers.
fn notes(state: &State, register: &str) -> Vec<String> {
    let of_register = state.fields().into_iter();
    let of_register = of_register.filter(|(name, _)| name.register == register);
    of_register
        .flat_map(|(name, value)| match bits_of(register, state.e2h) {
            Some(layout) => named_bits(value, layout, state.ecv),
            None => negative(name, value).into_iter().collect(),
        })
        .collect()
}

fn named_bits(word: u64, layout: &[Bits], ecv: bool) -> Vec<String> {
    layout
        .iter()
        .filter(|bits| bits.is_told(word, ecv))
        .map(|bits| format!("{} {}", bits.name, bits.of(word)))
        .collect()
}

fn negative(name: FieldName, value: u64) -> Option<String> {
    let part = name.part.map(|part| format!("{part} ")).unwrap_or_default();
    (value >> 63 == 1).then(|| format!("{part}{}", value as i64))
}

/// A line with its notes as a comment. What does not fit goes on below, in the same column.
fn with_notes(said: String, notes: &[String]) -> String {
    let margin = said.len();
    let mut text = said;
    let mut line = String::new();
    for note in notes {
        if line.is_empty() {
            line = format!(" # {note}");
        } else if margin + line.len() + note.len() + 3 > COLUMNS {
            text += &format!("{line},\n{:margin$}", "");
            line = format!(" # {note}");
        } else {
            line += &format!(", {note}");
        }
    }
    text + &line + "\n"
}

#[cfg(test)]
mod tests {
    use super::*;
    use crate::state::Timer;
    use crate::text::state_of;

    fn line_of(given: &State, register: &str) -> String {
        let text = state_text(given);
        let start = format!("{register} = ");
        let line = text.lines().find(|line| line.starts_with(&start));
        line.expect(register).to_string()
    }

    #[test]
    fn the_start_of_the_bench_reads_so() {
        assert_eq!(
            state_text(&State::bench()),
            "FEATURES = VHE 1, SEL2 1, ECV 0\n\
             SCR_EL3 = NS 1, EEL2 0, ECVEn 0\n\
             HCR_EL2 = E2H 0, TGE 0\n\
             CNTKCTL = 0x303 # EL0PCTEN 1, EL0VCTEN 1, EL0VTEN 1, EL0PTEN 1\n\
             CNTHCTL = 0 # EL1PCTEN 0, EL1PCEN 0\n\
             CNTVOFF = 400\n\
             CNTPOFF = 0\n\
             CNTP = CVAL 0, ENABLE 0, IMASK 0\n\
             CNTV = CVAL 0, ENABLE 0, IMASK 0\n\
             CNTHP = CVAL 0, ENABLE 0, IMASK 0\n\
             CNTHV = CVAL 0, ENABLE 0, IMASK 0\n\
             CNTHPS = CVAL 0, ENABLE 0, IMASK 0\n\
             CNTHVS = CVAL 0, ENABLE 0, IMASK 0\n"
        );
    }

    #[test]
    fn a_state_names_its_bits_by_e2h_and_those_of_ecv_where_they_matter() {
        let mut given = State {
            cnthctl: 0x803,
            ..State::bench()
        };
        let cnthctl = |given: &State| line_of(given, "CNTHCTL");
        assert_eq!(cnthctl(&given), "CNTHCTL = 0x803 # EL1PCTEN 1, EL1PCEN 1");
        given.cnthctl = 0x2000;
        assert_eq!(
            cnthctl(&given),
            "CNTHCTL = 0x2000 # EL1PCTEN 0, EL1PCEN 0, EL1TVT 1"
        );
        given.ecv = true;
        assert_eq!(
            cnthctl(&given),
            "CNTHCTL = 0x2000 # EL1PCTEN 0, EL1PCEN 0, ECV 0, EL1TVT 1, EL1TVCT 0"
        );
        given.e2h = true;
        assert!(cnthctl(&given).starts_with("CNTHCTL = 0x2000 # EL0PCTEN 0, EL0VCTEN 0"));
    }

    #[test]
    fn what_is_kept_without_effect_is_told_where_it_is_set() {
        let mut given = State {
            cntkctl: 0x200AD,
            ..State::default()
        };
        assert!(state_text(&given).contains(
            "CNTKCTL = 0x200AD # EL0PCTEN 1, EL0VCTEN 0, EVNTEN 1, EVNTDIR 1, EVNTI 10,\n\
             \x20                 # EL0VTEN 0, EL0PTEN 0, EVNTIS 1\n"
        ));
        given.cnthctl = 0x18000;
        assert_eq!(
            line_of(&given, "CNTHCTL"),
            "CNTHCTL = 0x18000 # EL1PCTEN 0, EL1PCEN 0, EL1NVPCT 1, EL1NVVCT 1"
        );
    }

    #[test]
    fn a_negative_number_is_told_beside_it() {
        let mut given = State::bench();
        given.cntvoff = u64::MAX - 99;
        given.timers[1] = Timer {
            cval: u64::MAX,
            enable: true,
            imask: true,
        };
        assert_eq!(
            line_of(&given, "CNTVOFF"),
            "CNTVOFF = 0xFFFFFFFFFFFFFF9C # -100"
        );
        assert_eq!(
            line_of(&given, "CNTV"),
            "CNTV = CVAL 0xFFFFFFFFFFFFFFFF, ENABLE 1, IMASK 1 # CVAL -1"
        );
    }

    #[test]
    fn the_widest_state_fits_a_terminal_and_comes_back() {
        let mut widest = State::default();
        for mut field in widest.fields_mut() {
            field.set(u64::MAX);
        }
        widest.timers = [Timer {
            cval: 1 << 63,
            enable: true,
            imask: true,
        }; 6];
        let text = state_text(&widest);
        assert!(text.lines().all(|line| line.len() <= COLUMNS), "{text}");
        assert!(
            text.contains("EVNTI 15,\n                     # EL0VTEN 1"),
            "{text}"
        );
        assert_eq!(state_of(&text), Ok(widest));
    }

    #[test]
    fn every_state_comes_back_from_its_text() {
        for round in 0..500u64 {
            let mut given = State::default();
            for (place, mut field) in given.fields_mut().into_iter().enumerate() {
                let mixed = (round * 64 + place as u64 + 1).wrapping_mul(0x9E37_79B9_7F4A_7C15);
                field.set(mixed >> (mixed >> 58));
            }
            let text = state_text(&given);
            assert_eq!(state_of(&text), Ok(given), "{text}");
            assert_eq!(state_of(&format!("ALL ZERO\n{text}")), Ok(given), "{text}");
        }
    }
}
