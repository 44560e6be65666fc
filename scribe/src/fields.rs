//! The fields of a state in the order of its image, each with the register that it is of.

use std::fmt;

use crate::state::{State, TIMERS};

/// What a field is called: its register, and its own name where that is not all of the register.
#[derive(Clone, Copy, Debug, PartialEq, Eq)]
pub struct FieldName {
    pub register: &'static str,
    pub part: Option<&'static str>,
}

impl fmt::Display for FieldName {
    fn fmt(&self, f: &mut fmt::Formatter<'_>) -> fmt::Result {
        match self.part {
            Some(part) => write!(f, "{} {part}", self.register),
            None => write!(f, "{}", self.register),
        }
    }
}

enum Kept<'a> {
    Bit(&'a mut bool),
    Word(&'a mut u32),
    Long(&'a mut u64),
}

/// A field, and where the state keeps it.
pub(crate) struct Field<'a> {
    pub(crate) name: FieldName,
    kept: Kept<'a>,
}

impl<'a> Field<'a> {
    fn of(register: &'static str, part: &'static str, kept: Kept<'a>) -> Field<'a> {
        let part = Some(part);
        let name = FieldName { register, part };
        Field { name, kept }
    }

    fn whole(register: &'static str, kept: Kept<'a>) -> Field<'a> {
        let part = None;
        let name = FieldName { register, part };
        Field { name, kept }
    }

    pub(crate) fn bits(&self) -> u32 {
        match self.kept {
            Kept::Bit(_) => 1,
            Kept::Word(_) => 32,
            Kept::Long(_) => 64,
        }
    }

    pub(crate) fn value(&self) -> u64 {
        match &self.kept {
            Kept::Bit(bit) => u64::from(**bit),
            Kept::Word(word) => u64::from(**word),
            Kept::Long(long) => **long,
        }
    }

    /// Keeps the low bits of a number, as many as the field has.
    pub(crate) fn set(&mut self, value: u64) {
        match &mut self.kept {
            Kept::Bit(bit) => **bit = value & 1 == 1,
            Kept::Word(word) => **word = value as u32,
            Kept::Long(long) => **long = value,
        }
    }
}

/// The registers of a state, in the order of its image.
pub(crate) fn registers() -> Vec<&'static str> {
    let mut names: Vec<&str> = State::default()
        .fields()
        .iter()
        .map(|(name, _)| name.register)
        .collect();
    names.dedup();
    names
}

/// A register as Arm calls it, where that name is longer.
pub(crate) fn arm_name(register: &'static str) -> &'static str {
    match register {
        "CNTKCTL" => "CNTKCTL_EL1",
        "CNTHCTL" => "CNTHCTL_EL2",
        "CNTVOFF" => "CNTVOFF_EL2",
        "CNTPOFF" => "CNTPOFF_EL2",
        other => other,
    }
}

impl State {
    pub(crate) fn fields_mut(&mut self) -> Vec<Field<'_>> {
        let mut fields = vec![
            Field::of("FEATURES", "VHE", Kept::Bit(&mut self.vhe)),
            Field::of("FEATURES", "SEL2", Kept::Bit(&mut self.sel2)),
            Field::of("FEATURES", "ECV", Kept::Bit(&mut self.ecv)),
            Field::of("SCR_EL3", "NS", Kept::Bit(&mut self.ns)),
            Field::of("SCR_EL3", "EEL2", Kept::Bit(&mut self.eel2)),
            Field::of("SCR_EL3", "ECVEn", Kept::Bit(&mut self.ecven)),
            Field::of("HCR_EL2", "E2H", Kept::Bit(&mut self.e2h)),
            Field::of("HCR_EL2", "TGE", Kept::Bit(&mut self.tge)),
            Field::whole("CNTKCTL", Kept::Word(&mut self.cntkctl)),
            Field::whole("CNTHCTL", Kept::Word(&mut self.cnthctl)),
            Field::whole("CNTVOFF", Kept::Long(&mut self.cntvoff)),
            Field::whole("CNTPOFF", Kept::Long(&mut self.cntpoff)),
        ];
        for (timer, name) in self.timers.iter_mut().zip(TIMERS) {
            fields.extend([
                Field::of(name, "CVAL", Kept::Long(&mut timer.cval)),
                Field::of(name, "ENABLE", Kept::Bit(&mut timer.enable)),
                Field::of(name, "IMASK", Kept::Bit(&mut timer.imask)),
            ]);
        }
        fields
    }

    /// The fields with what they hold.
    pub(crate) fn fields(mut self) -> Vec<(FieldName, u64)> {
        let fields = self.fields_mut();
        fields.iter().map(|f| (f.name, f.value())).collect()
    }
}

/// A field that holds something else than before.
#[derive(Clone, Copy, Debug, PartialEq, Eq)]
pub struct Change {
    pub name: FieldName,
    pub before: u64,
    pub after: u64,
}

/// Where the second state differs from the first.
pub fn changes(before: &State, after: &State) -> Vec<Change> {
    let pairs = before.fields().into_iter().zip(after.fields());
    pairs
        .filter(|((_, before), (_, after))| before != after)
        .map(|((name, before), (_, after))| Change {
            name,
            before,
            after,
        })
        .collect()
}

#[cfg(test)]
mod tests {
    use super::*;

    #[test]
    fn every_field_keeps_what_is_set_and_no_other_moves() {
        let count = State::default().fields().len();
        for place in 0..count {
            let mut state = State::default();
            let mut fields = state.fields_mut();
            let bits = fields[place].bits();
            fields[place].set(u64::MAX);
            let set: Vec<u64> = fields.iter().map(Field::value).collect();
            assert_eq!(set[place], u64::MAX >> (64 - bits));
            assert_eq!(set.iter().filter(|value| **value != 0).count(), 1);
        }
    }

    #[test]
    fn a_change_is_named_by_register_and_field() {
        let before = State::bench();
        let mut after = before;
        assert_eq!(changes(&before, &after), []);
        after.cntvoff = 5;
        after.timers[1].cval = 1100;
        let named: Vec<String> = changes(&before, &after)
            .iter()
            .map(|change| format!("{}: {} {}", change.name, change.before, change.after))
            .collect();
        assert_eq!(named, ["CNTVOFF: 400 5", "CNTV CVAL: 0 1100"]);
    }
}
