//! Lines of text to a state.
//!
//! A line is a register, a comment after `#`, or blank; in any order, each register once:
//!
//! ```text
//! FEATURES = ECV 1
//! CNTHCTL = 0x3                # or by its bits: EL1PCTEN 1, EL1PCEN 1
//! CNTVOFF = -400
//! CNTV = CVAL 650, ENABLE 1
//! ```
//!
//! What is left out, a register or a field of one, is as in the bench's start; it is zero where
//! `ALL ZERO` stands before the first register.

use crate::control::{bits_of, Bits};
use crate::fields::{arm_name, registers, Field};
use crate::state::State;

use super::fault::{Fault, Parsed};
use super::line::Line;
use super::lines::lines;
use super::nearest::told_nearest;

/// A line that begins with a register, up to its `=`.
struct Row<'a> {
    index: usize,
    register: &'static str,
    rest: Line<'a>,
}

/// The state that a text describes.
pub fn state_of(text: &str) -> Result<State, Fault> {
    let mut said = Said::default();
    let mut faults = Vec::new();
    for (index, line) in lines(text).enumerate() {
        let mut line = Line::of(line);
        // To what stands before the first fault nothing behind it matters but E2H.
        if faults.is_empty() || line.next_is("HCR_EL2") {
            let taken = said.take(index, line);
            faults.extend(taken.err().map(|fault| fault.at(index)));
        }
    }
    let mut state = match said.all_zero {
        true => State::default(),
        false => State::bench(),
    };
    faults.extend(fill_all(&mut state, said.rows));
    let first = faults
        .into_iter()
        .min_by_key(|fault| (fault.line, fault.column));
    first.map_or(Ok(state), Err)
}

/// What the lines say so far, but for what stands behind each `=`.
#[derive(Default)]
struct Said<'a> {
    all_zero: bool,
    rows: Vec<Row<'a>>,
}

impl<'a> Said<'a> {
    fn take(&mut self, index: usize, mut line: Line<'a>) -> Parsed<()> {
        if line.next_is("ALL") {
            self.take_all_zero(line)?;
        } else if !line.is_over() {
            self.rows.push(row(index, line, &self.rows)?);
        }
        Ok(())
    }

    fn take_all_zero(&mut self, mut line: Line) -> Parsed<()> {
        let token = line.next("`ALL`")?;
        if self.all_zero || !self.rows.is_empty() {
            return Err(token.fault("`ALL ZERO` only once, before the first register"));
        }
        line.sign("ZERO")?;
        self.all_zero = true;
        line.end()
    }
}

fn row<'a>(index: usize, mut line: Line<'a>, before: &[Row]) -> Parsed<Row<'a>> {
    let wanted = "a register of a state";
    let token = line.next(wanted)?;
    let names = registers();
    let is_it = |name: &&&'static str| token.is(name) || token.is(arm_name(name));
    let Some(&register) = names.iter().find(is_it) else {
        return Err(token.fault(wanted).with(&perhaps(token.text, &names)));
    };
    if let Some(first) = before.iter().find(|row| row.register == register) {
        let line = first.index + 1;
        return Err(token.fault(&format!("each register once, and line {line} has it")));
    }
    line.sign("=")?;
    Ok(Row {
        index,
        register,
        rest: line,
    })
}

/// What was perhaps meant by a word that is no register.
fn perhaps(word: &str, names: &[&'static str]) -> String {
    let has_it = |&register: &&'static str| {
        let mut parts = parts_of(register);
        let part = parts.find(|part| part.eq_ignore_ascii_case(word))?;
        Some((register, part))
    };
    let (having, parts): (Vec<&str>, Vec<&str>) = names.iter().filter_map(has_it).unzip();
    match parts.as_slice() {
        [] => told_nearest(word, names),
        [part] => format!("; {} has {part}", having[0]),
        [part, ..] => format!("; {} have {part}", having.join(", ")),
    }
}

/// The names of a register's fields, by either layout of a control register.
fn parts_of(register: &str) -> impl Iterator<Item = &'static str> + '_ {
    let fields = State::default().fields().into_iter();
    let fields = fields.filter(move |(name, _)| name.register == register);
    let bits = [false, true].into_iter();
    let bits = bits.filter_map(move |e2h| bits_of(register, e2h)).flatten();
    let parts = fields.filter_map(|(name, _)| name.part);
    parts.chain(bits.map(|bits| bits.name))
}

/// Fills in what the rows say, and gives their faults.
fn fill_all(state: &mut State, mut rows: Vec<Row>) -> Vec<Fault> {
    // E2H picks the names of CNTHCTL's fields, so HCR_EL2 goes before it wherever it stands.
    let order = registers();
    rows.sort_by_key(|row| order.iter().position(|name| *name == row.register));
    let faults = rows.into_iter().filter_map(|row| {
        let filled = fill(state, row.register, row.rest);
        filled.err().map(|fault| fault.at(row.index))
    });
    faults.collect()
}

fn fill(state: &mut State, register: &'static str, mut line: Line) -> Parsed<()> {
    let e2h = state.e2h;
    let bits = bits_of(register, e2h);
    let mut fields = state.fields_mut();
    fields.retain(|field| field.name.register == register);
    match (bits, &mut fields[..]) {
        (Some(bits), [word]) if !line.next_is_number() => {
            let what = format!(
                "a number, or a field of {register}{}",
                naming(register, e2h)
            );
            bits_by_name(&mut line, &what, word, bits)?
        }
        (_, [whole]) if whole.name.part.is_none() => whole.set(field_number(&mut line, whole)?),
        (_, parts) => parts_by_name(&mut line, parts)?,
    }
    line.end()
}

/// What is to be said of the names of a control register's fields.
fn naming(register: &str, e2h: bool) -> String {
    match bits_of(register, e2h) == bits_of(register, !e2h) {
        true => String::new(),
        false => format!(" as E2H {} names them", u8::from(e2h)),
    }
}

fn bits_by_name(line: &mut Line, what: &str, word: &mut Field, layout: &[Bits]) -> Parsed<()> {
    let names: Vec<&str> = layout.iter().map(|bits| bits.name).collect();
    each_named(line, what, &names, |line, chosen| {
        let bits = layout[chosen];
        let value = number(line, bits.name, bits.width)?;
        word.set(bits.put(word.value(), value));
        Ok(())
    })
}

fn parts_by_name(line: &mut Line, parts: &mut [Field]) -> Parsed<()> {
    let names: Vec<&str> = parts.iter().filter_map(|part| part.name.part).collect();
    let what = format!("a field of {}", parts[0].name.register);
    each_named(line, &what, &names, |line, chosen| {
        let part = &mut parts[chosen];
        part.set(field_number(line, part)?);
        Ok(())
    })
}

/// Takes `NAME value`, and after each comma another; no name twice.
fn each_named(
    line: &mut Line,
    what: &str,
    names: &[&str],
    mut take: impl FnMut(&mut Line, usize) -> Parsed<()>,
) -> Parsed<()> {
    let wanted = format!("{what}: {}", names.join(", "));
    let mut taken = Vec::new();
    loop {
        let token = line.next(&wanted)?;
        let chosen = names.iter().position(|name| token.is(name));
        let chosen = chosen.ok_or_else(|| token.fault(&wanted))?;
        if taken.contains(&chosen) {
            return Err(token.fault("each field once"));
        }
        taken.push(chosen);
        take(line, chosen)?;
        if !line.skip(",") {
            return Ok(());
        }
    }
}

fn field_number(line: &mut Line, field: &Field) -> Parsed<u64> {
    number(line, &field.name.to_string(), field.bits())
}

fn number(line: &mut Line, what: &str, width: u32) -> Parsed<u64> {
    match width {
        1 => line.bit(what),
        64 => line.signed_number(what),
        bits => line.number(what, bits),
    }
}

#[cfg(test)]
mod tests {
    use super::*;
    use crate::state::Timer;

    fn state(text: &str) -> State {
        state_of(text).expect(text)
    }

    fn fault(text: &str) -> String {
        state_of(text).expect_err(text).to_string()
    }

    #[test]
    fn what_is_left_out_is_the_start_of_the_bench() {
        assert_eq!(state(""), State::bench());
        assert_eq!(state("# nothing\n\n"), State::bench());
        assert_eq!(state("\u{FEFF}# nothing\rCNTVOFF = 5\r").cntvoff, 5);
        let ecv = State {
            ecv: true,
            ..State::bench()
        };
        assert_eq!(state("FEATURES = ECV 1"), ecv);
    }

    #[test]
    fn what_is_left_out_is_zero_under_the_heading() {
        assert_eq!(state("# a title\nall zero\n"), State::default());
        let sel2 = State {
            sel2: true,
            ..State::default()
        };
        assert_eq!(state("ALL ZERO # but\nFEATURES = SEL2 1"), sel2);
    }

    #[test]
    fn a_register_is_a_number_or_its_fields() {
        let mut wanted = State {
            cntkctl: 0x302,
            cnthctl: 0x7000,
            cntvoff: 0u64.wrapping_sub(400),
            cntpoff: 0xFF,
            tge: true,
            ..State::bench()
        };
        wanted.timers[1] = Timer {
            cval: 650,
            enable: true,
            imask: false,
        };
        wanted.timers[5].imask = true;
        let text = "cntv=cval 650,enable 1\nCNTHVS = IMASK 1 # masked\nHCR_EL2 = TGE 1\n\
                    CNTKCTL = EL0PCTEN 0\nCNTHCTL_EL2 = 0x7000\nCNTVOFF = -400\nCNTPOFF_EL2 = 0xFF";
        assert_eq!(state(text), wanted);
    }

    #[test]
    fn e2h_picks_the_places_of_named_bits_wherever_it_stands() {
        let text = "CNTHCTL = EL1PCTEN 1";
        assert_eq!(state(text).cnthctl, 1);
        assert_eq!(state(&format!("{text}\nHCR_EL2 = E2H 1")).cnthctl, 1 << 10);
        assert_eq!(
            fault("CNTHCTL = EL1PTEN 1"),
            "1:11: expected a number, or a field of CNTHCTL as E2H 0 names them: EL1PCTEN, EL1PCEN, \
             EVNTEN, EVNTDIR, EVNTI, ECV, EL1TVT, EL1TVCT, EL1NVPCT, EL1NVVCT, EVNTIS, \
             found `EL1PTEN`"
        );
        let said = fault("CNTHCTL = EL1PCEN 1\nHCR_EL2 = E2H 1");
        assert!(
            said.contains("a field of CNTHCTL as E2H 1 names them: EL0PCTEN, "),
            "{said}"
        );
        let said = fault("CNTKCTL = EL1PCEN 1");
        assert!(said.contains("a field of CNTKCTL: EL0PCTEN, "), "{said}");
    }

    #[test]
    fn what_is_kept_without_effect_may_be_written_by_name() {
        let state = state(
            "ALL ZERO\nCNTKCTL = EVNTEN 1, EVNTI 0xF, EVNTIS 1\n\
             CNTHCTL = EVNTDIR 1, EVNTI 5, EL1NVPCT 1, EL1NVVCT 1",
        );
        assert_eq!((state.cntkctl, state.cnthctl), (0x200F4, 0x18058));
    }

    #[test]
    fn a_fault_says_where_and_what_was_expected() {
        for (text, said) in [
            (
                "CNTVOF = 1",
                "1:1: expected a register of a state, found `CNTVOF`; nearest: CNTVOFF",
            ),
            (
                "CNTX = 1",
                "1:1: expected a register of a state, found `CNTX`; nearest: CNTP, CNTV",
            ),
            (
                "\nCNTV = CVAL 1\nCNTVOFF = 1\ncntv = CVAL 2",
                "4:1: expected each register once, and line 2 has it, found `cntv`",
            ),
            (
                "CNTV = CVAL 1, CVAL 1",
                "1:16: expected each field once, found `CVAL`",
            ),
            (
                "CNTV = 5",
                "1:8: expected a field of CNTV: CVAL, ENABLE, IMASK, found `5`",
            ),
            (
                "CNTV = CVAL 1 ENABLE 1",
                "1:15: expected the end of the line, found `ENABLE`",
            ),
            (
                "CNTV = CVAL 1,",
                "1:15: expected a field of CNTV: CVAL, ENABLE, IMASK, found the end of the line",
            ),
            (
                "CNTV = ENABLE 2",
                "1:15: expected CNTV ENABLE, 0 or 1, found `2`",
            ),
            (
                "CNTKCTL = 0x100000000",
                "1:11: expected CNTKCTL of at most 32 bits, decimal or 0x, found `0x100000000`",
            ),
            (
                "CNTKCTL = -1",
                "1:11: expected CNTKCTL of at most 32 bits, decimal or 0x, found `-1`",
            ),
            (
                "CNTKCTL = EVNTI 16",
                "1:17: expected EVNTI of at most 4 bits, decimal or 0x, found `16`",
            ),
            (
                "CNTVOFF = 4oo",
                "1:11: expected CNTVOFF of at most 64 bits, decimal, 0x or negative like -5, \
                 found `4oo`",
            ),
            ("CNTVOFF 1", "1:9: expected `=`, found `1`"),
            ("ALL 0", "1:5: expected `ZERO`, found `0`"),
            (
                "CNTVOFF = 1\nALL ZERO",
                "2:1: expected `ALL ZERO` only once, before the first register, found `ALL`",
            ),
            (
                "ALL ZERO\nALL ZERO",
                "2:1: expected `ALL ZERO` only once, before the first register, found `ALL`",
            ),
        ] {
            assert_eq!(fault(text), said, "{text}");
        }
    }

    #[test]
    fn of_two_faults_the_first_in_the_text_is_told() {
        for (text, place) in [
            ("CNTV = CVAL x\nFEATURES = VHE 2", "1:13: "),
            ("CNTV = CVAL x\nFOO = 1", "1:13: "),
            ("CNTV = CVAL x\nCNTVOFF 1\nALL ZERO", "1:13: "),
            ("FOO = 1\nCNTV = CVAL x", "1:1: "),
            ("CNTHCTL = EL1PTEN 1\nFOO = 1\nHCR_EL2 = E2H 1", "2:1: "),
        ] {
            let said = fault(text);
            assert!(said.starts_with(place), "{said}");
        }
    }

    #[test]
    fn what_was_perhaps_meant_is_told() {
        let told = |name: &str| {
            let said = fault(&format!("{name} = 1"));
            let (_, told) = said.split_once(&format!("found `{name}`")).expect(&said);
            told.to_string()
        };
        assert_eq!(told("CNTV_CVAL_EL0"), "; nearest: CNTV");
        assert_eq!(told("cnthps_ctl_el2"), "; nearest: CNTHPS");
        assert_eq!(told("CNTVOFF_EL1"), "; nearest: CNTVOFF");
        assert_eq!(told("HCR"), "; nearest: HCR_EL2");
        assert_eq!(told("E2H"), "; HCR_EL2 has E2H");
        assert_eq!(told("ecv"), "; FEATURES, CNTHCTL have ECV");
        assert_eq!(told("ecven"), "; SCR_EL3 has ECVEn");
        assert_eq!(told("EL1PTEN"), "; CNTHCTL has EL1PTEN");
        assert_eq!(told("evnti"), "; CNTKCTL, CNTHCTL have EVNTI");
        assert_eq!(told(";"), "");
        assert_eq!(told("FOO"), "");
    }
}
