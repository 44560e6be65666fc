//! The fields of CNTKCTL_EL1 and CNTHCTL_EL2 by name (RULES, 'Stored bits').

/// A field of a control register.
#[derive(Clone, Copy, Debug, PartialEq, Eq)]
pub(crate) struct Bits {
    pub(crate) name: &'static str,
    pub(crate) width: u32,
    low: u32,
    told_at_0: ToldAt0,
}

/// Where a field that holds 0 is told all the same.
#[derive(Clone, Copy, Debug, PartialEq, Eq)]
enum ToldAt0 {
    Always,
    /// It came with that feature.
    WithEcv,
    /// It is kept without effect.
    Never,
}

const EVNTEN: Bits = kept("EVNTEN", 2, 1);
const EVNTDIR: Bits = kept("EVNTDIR", 3, 1);
const EVNTI: Bits = kept("EVNTI", 4, 4);
const EVNTIS: Bits = kept("EVNTIS", 17, 1);

/// Of CNTHCTL, by either layout.
pub(crate) const ECV: Bits = bit_of_ecv("ECV", 12);

const CNTKCTL: &[Bits] = &[
    bit("EL0PCTEN", 0),
    bit("EL0VCTEN", 1),
    EVNTEN,
    EVNTDIR,
    EVNTI,
    bit("EL0VTEN", 8),
    bit("EL0PTEN", 9),
    EVNTIS,
];

const CNTHCTL_E2H_0: &[Bits] = &[
    bit("EL1PCTEN", 0),
    bit("EL1PCEN", 1),
    EVNTEN,
    EVNTDIR,
    EVNTI,
    ECV,
    bit_of_ecv("EL1TVT", 13),
    bit_of_ecv("EL1TVCT", 14),
    kept("EL1NVPCT", 15, 1),
    kept("EL1NVVCT", 16, 1),
    EVNTIS,
];

const CNTHCTL_E2H_1: &[Bits] = &[
    bit("EL0PCTEN", 0),
    bit("EL0VCTEN", 1),
    EVNTEN,
    EVNTDIR,
    EVNTI,
    bit("EL0VTEN", 8),
    bit("EL0PTEN", 9),
    bit("EL1PCTEN", 10),
    bit("EL1PTEN", 11),
    ECV,
    bit_of_ecv("EL1TVT", 13),
    bit_of_ecv("EL1TVCT", 14),
    kept("EL1NVPCT", 15, 1),
    kept("EL1NVVCT", 16, 1),
    EVNTIS,
];

const fn bit(name: &'static str, low: u32) -> Bits {
    Bits {
        name,
        width: 1,
        low,
        told_at_0: ToldAt0::Always,
    }
}

const fn bit_of_ecv(name: &'static str, low: u32) -> Bits {
    Bits {
        told_at_0: ToldAt0::WithEcv,
        ..bit(name, low)
    }
}

const fn kept(name: &'static str, low: u32, width: u32) -> Bits {
    Bits {
        width,
        told_at_0: ToldAt0::Never,
        ..bit(name, low)
    }
}

impl Bits {
    fn mask(self) -> u64 {
        ((1 << self.width) - 1) << self.low
    }

    /// What the field holds in a word.
    pub(crate) fn of(self, word: u64) -> u64 {
        (word & self.mask()) >> self.low
    }

    /// The word with that in the field.
    pub(crate) fn put(self, word: u64, value: u64) -> u64 {
        word & !self.mask() | value << self.low & self.mask()
    }

    /// Whether what the field holds in a word is told.
    pub(crate) fn is_told(self, word: u64, ecv: bool) -> bool {
        let told_at_0 = match self.told_at_0 {
            ToldAt0::Always => true,
            ToldAt0::WithEcv => ecv,
            ToldAt0::Never => false,
        };
        told_at_0 || self.of(word) != 0
    }
}

/// The fields of a control register, of which E2H picks the layout; other registers have none.
pub(crate) fn bits_of(register: &str, e2h: bool) -> Option<&'static [Bits]> {
    match (register, e2h) {
        ("CNTKCTL", _) => Some(CNTKCTL),
        ("CNTHCTL", false) => Some(CNTHCTL_E2H_0),
        ("CNTHCTL", true) => Some(CNTHCTL_E2H_1),
        _ => None,
    }
}

#[cfg(test)]
mod tests {
    use super::*;

    #[test]
    fn what_a_write_may_keep_has_a_name_and_nothing_else_has() {
        for (layout, kept) in [
            (CNTKCTL, 0x203FF),
            (CNTHCTL_E2H_0, 0x3F0FF),
            (CNTHCTL_E2H_1, 0x3FFFF),
        ] {
            let named: u64 = layout.iter().map(|bits| bits.mask()).sum();
            assert_eq!(named, kept);
        }
    }

    #[test]
    fn a_field_is_put_beside_the_others() {
        assert_eq!(EVNTI.put(0xFFFF, 5), 0xFF5F);
        assert_eq!(EVNTI.of(0xFF5F), 5);
        assert_eq!(EVNTIS.put(0, 1), 1 << 17);
    }
}
