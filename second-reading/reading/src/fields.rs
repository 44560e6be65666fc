//! Document 02, request 1: the fields of CNTKCTL and CNTHCTL that a write stores, as Arm's pages
//! have them.

use std::fmt;

use crate::listed::listed;
use crate::state::ControlName;

listed! {
    /// A register of control bits as Arm's pages lay it out: CNTHCTL by its E2H.
    pub enum Layout {
        Cntkctl,
        CnthctlE2h0,
        CnthctlE2h1,
    }
}

use Layout::*;

const CNTHCTL: &[Layout] = &[CnthctlE2h0, CnthctlE2h1];
const CNTHCTL_E2H_0: &[Layout] = &[CnthctlE2h0];
const CNTHCTL_E2H_1: &[Layout] = &[CnthctlE2h1];
const CNTKCTL_AND_E2H_1: &[Layout] = &[Cntkctl, CnthctlE2h1];
const ALL: &[Layout] = &Layout::ALL;

/// When a field is there to be stored.
#[derive(Clone, Copy, Debug, PartialEq, Eq)]
enum If {
    Always,
    Ecv,
}

use If::*;

/// A field of the control registers.
#[derive(Clone, Copy, Debug, PartialEq, Eq)]
pub struct Field {
    pub name: &'static str,
    lowest: u32,
    highest: u32,
    layouts: &'static [Layout],
    there: If,
}

/// What no row names is reserved for the features that are modelled: bits 18 and 19 are Realm's.
const FIELDS: [Field; 17] = [
    bit("EL0PCTEN", 0, CNTKCTL_AND_E2H_1, Always),
    bit("EL1PCTEN", 0, CNTHCTL_E2H_0, Always),
    bit("EL0VCTEN", 1, CNTKCTL_AND_E2H_1, Always),
    bit("EL1PCEN", 1, CNTHCTL_E2H_0, Always),
    bit("EVNTEN", 2, ALL, Always),
    bit("EVNTDIR", 3, ALL, Always),
    bits("EVNTI", 4, 7, ALL, Always),
    bit("EL0VTEN", 8, CNTKCTL_AND_E2H_1, Always),
    bit("EL0PTEN", 9, CNTKCTL_AND_E2H_1, Always),
    bit("EL1PCTEN", 10, CNTHCTL_E2H_1, Always),
    bit("EL1PTEN", 11, CNTHCTL_E2H_1, Always),
    bit("ECV", 12, CNTHCTL, Ecv),
    bit("EL1TVT", 13, CNTHCTL, Ecv),
    bit("EL1TVCT", 14, CNTHCTL, Ecv),
    bit("EL1NVPCT", 15, CNTHCTL, Ecv),
    bit("EL1NVVCT", 16, CNTHCTL, Ecv),
    bit("EVNTIS", 17, ALL, Ecv),
];

const fn bit(name: &'static str, place: u32, layouts: &'static [Layout], there: If) -> Field {
    bits(name, place, place, layouts, there)
}

const fn bits(
    name: &'static str,
    lowest: u32,
    highest: u32,
    layouts: &'static [Layout],
    there: If,
) -> Field {
    Field {
        name,
        lowest,
        highest,
        layouts,
        there,
    }
}

impl Field {
    /// The bits that it takes in its register.
    pub fn bits(&self) -> u32 {
        (self.lowest..=self.highest).map(|place| 1 << place).sum()
    }

    fn is_there(&self, ecv: bool) -> bool {
        match self.there {
            Always => true,
            Ecv => ecv,
        }
    }
}

impl Layout {
    /// E2H tells the layouts of CNTHCTL apart.
    pub(crate) fn of(control: ControlName, e2h: bool) -> Layout {
        match (control, e2h) {
            (ControlName::Cntkctl, _) => Cntkctl,
            (ControlName::Cnthctl, false) => CnthctlE2h0,
            (ControlName::Cnthctl, true) => CnthctlE2h1,
        }
    }

    /// Its fields, with ECV or without.
    pub fn fields(self, ecv: bool) -> impl Iterator<Item = &'static Field> {
        let stands = move |field: &&Field| field.layouts.contains(&self) && field.is_there(ecv);
        FIELDS.iter().filter(stands)
    }

    /// The bits of its fields; the others are reserved.
    pub fn bits(self, ecv: bool) -> u32 {
        self.fields(ecv).map(Field::bits).sum()
    }
}

impl fmt::Display for Layout {
    fn fmt(&self, f: &mut fmt::Formatter<'_>) -> fmt::Result {
        f.write_str(match self {
            Cntkctl => "CNTKCTL",
            CnthctlE2h0 => "CNTHCTL with E2H 0",
            CnthctlE2h1 => "CNTHCTL with E2H 1",
        })
    }
}

#[cfg(test)]
mod tests {
    use super::*;
    use crate::control::Control;

    /// Document 01 says it too.
    #[test]
    fn every_control_bit_is_a_field_in_its_place() {
        for &control in Control::ALL {
            let layouts = [false, true].map(|e2h| Layout::of(control.register(), e2h));
            let stands = layouts
                .into_iter()
                .flat_map(|layout| layout.fields(true))
                .any(|field| field.name == control.name() && field.bits() == 1 << control.place());
            assert!(stands, "{control}");
        }
    }
}
