//! The timer registers: their names and encoding numbers.

/// A register by its name, with op1, CRm and op2; op0 is 3 and CRn is 14 in all.
#[derive(Clone, Copy, Debug, PartialEq, Eq)]
pub(crate) struct Register {
    pub(crate) name: &'static str,
    pub(crate) encoding: (u32, u32, u32),
}

const REGISTERS: [Register; 20] = [
    register("CNTPCT_EL0", 3, 0, 1),
    register("CNTVCT_EL0", 3, 0, 2),
    register("CNTPCTSS_EL0", 3, 0, 5),
    register("CNTVCTSS_EL0", 3, 0, 6),
    register("CNTP_TVAL_EL0", 3, 2, 0),
    register("CNTP_CTL_EL0", 3, 2, 1),
    register("CNTP_CVAL_EL0", 3, 2, 2),
    register("CNTV_TVAL_EL0", 3, 3, 0),
    register("CNTV_CTL_EL0", 3, 3, 1),
    register("CNTV_CVAL_EL0", 3, 3, 2),
    register("CNTVOFF_EL2", 4, 0, 3),
    register("CNTHP_TVAL_EL2", 4, 2, 0),
    register("CNTHP_CTL_EL2", 4, 2, 1),
    register("CNTHP_CVAL_EL2", 4, 2, 2),
    register("CNTHVS_TVAL_EL2", 4, 4, 0),
    register("CNTHVS_CTL_EL2", 4, 4, 1),
    register("CNTHVS_CVAL_EL2", 4, 4, 2),
    register("CNTKCTL_EL1", 0, 1, 0),
    register("CNTHCTL_EL2", 4, 1, 0),
    register("CNTPOFF_EL2", 4, 0, 6),
];

const fn register(name: &'static str, op1: u32, crm: u32, op2: u32) -> Register {
    Register {
        name,
        encoding: (op1, crm, op2),
    }
}

impl Register {
    /// The register of that name, in capitals or not.
    pub(crate) fn named(name: &str) -> Option<Register> {
        Register::that(|register| register.name.eq_ignore_ascii_case(name))
    }

    pub(crate) fn names() -> Vec<&'static str> {
        REGISTERS.iter().map(|register| register.name).collect()
    }

    pub(crate) fn encoded(encoding: (u32, u32, u32)) -> Option<Register> {
        Register::that(|register| register.encoding == encoding)
    }

    fn that(is_it: impl Fn(&Register) -> bool) -> Option<Register> {
        REGISTERS.into_iter().find(is_it)
    }

    /// Whether its bits are ENABLE, IMASK and ISTATUS.
    pub(crate) fn is_ctl(self) -> bool {
        self.name.contains("_CTL_")
    }

    /// Whether its fields are read out of its digits, so that these are hexadecimal.
    pub(crate) fn is_control(self) -> bool {
        matches!(self.name, "CNTKCTL_EL1" | "CNTHCTL_EL2")
    }
}

#[cfg(test)]
mod tests {
    use super::*;

    #[test]
    fn no_name_and_no_encoding_stands_twice() {
        for register in REGISTERS {
            assert_eq!(Register::named(register.name), Some(register));
            assert_eq!(Register::encoded(register.encoding), Some(register));
        }
    }

    #[test]
    fn a_name_may_be_written_small() {
        let found = Register::named("cntv_ctl_el0").map(|register| register.encoding);
        assert_eq!(found, Some((3, 3, 1)));
        assert_eq!(Register::named("CNTV_CTL"), None);
    }

    #[test]
    fn four_timers_have_a_control_register() {
        let found = REGISTERS.into_iter().filter(|register| register.is_ctl());
        assert!(found.map(|register| register.encoding.2).eq([1, 1, 1, 1]));
    }
}
