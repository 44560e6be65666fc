//! Document 01, 'Instruction words and register names', and document 02, request 1: the name table.

use crate::listed::listed;

listed! {
    /// The three registers through which a timer is seen.
    pub enum Part {
        Tval,
        Ctl,
        Cval,
    }
}

listed! {
    /// A register of the table, in its order: a family, and for a timer's family the part.
    pub enum Register {
        Cntpct,
        Cntvct,
        Cntpctss,
        Cntvctss,
        Cntp(Part),
        Cntv(Part),
        Cntvoff,
        Cnthp(Part),
        Cnthvs(Part),
        Cntkctl,
        Cnthctl,
        Cntpoff,
    }
}

use Register::*;

impl Register {
    /// op1, CRm and op2; op0 is 3 and CRn is 14 in all.
    pub(crate) fn encoding(self) -> (u32, u32, u32) {
        match self {
            Cntpct => (3, 0, 1),
            Cntvct => (3, 0, 2),
            Cntpctss => (3, 0, 5),
            Cntvctss => (3, 0, 6),
            Cntp(part) => (3, 2, part.op2()),
            Cntv(part) => (3, 3, part.op2()),
            Cntvoff => (4, 0, 3),
            Cnthp(part) => (4, 2, part.op2()),
            Cnthvs(part) => (4, 4, part.op2()),
            Cntkctl => (0, 1, 0),
            Cnthctl => (4, 1, 0),
            Cntpoff => (4, 0, 6),
        }
    }

    pub fn name(self) -> String {
        match self {
            Cntpct => "CNTPCT_EL0".to_string(),
            Cntvct => "CNTVCT_EL0".to_string(),
            Cntpctss => "CNTPCTSS_EL0".to_string(),
            Cntvctss => "CNTVCTSS_EL0".to_string(),
            Cntp(part) => format!("CNTP_{}_EL0", part.name()),
            Cntv(part) => format!("CNTV_{}_EL0", part.name()),
            Cntvoff => "CNTVOFF_EL2".to_string(),
            Cnthp(part) => format!("CNTHP_{}_EL2", part.name()),
            Cnthvs(part) => format!("CNTHVS_{}_EL2", part.name()),
            Cntkctl => "CNTKCTL_EL1".to_string(),
            Cnthctl => "CNTHCTL_EL2".to_string(),
            Cntpoff => "CNTPOFF_EL2".to_string(),
        }
    }

    /// The part of a timer that it is.
    pub fn part(self) -> Option<Part> {
        match self {
            Cntp(part) | Cntv(part) | Cnthp(part) | Cnthvs(part) => Some(part),
            Cntpct | Cntvct | Cntpctss | Cntvctss => None,
            Cntvoff | Cntkctl | Cnthctl | Cntpoff => None,
        }
    }

    pub(crate) fn is_counter(self) -> bool {
        match self {
            Cntpct | Cntvct | Cntpctss | Cntvctss => true,
            Cntp(_) | Cntv(_) | Cnthp(_) | Cnthvs(_) => false,
            Cntvoff | Cntkctl | Cnthctl | Cntpoff => false,
        }
    }

    pub(crate) fn is_ss_form(self) -> bool {
        match self {
            Cntpctss | Cntvctss => true,
            Cntpct | Cntvct | Cntp(_) | Cntv(_) | Cnthp(_) | Cnthvs(_) => false,
            Cntvoff | Cntkctl | Cnthctl | Cntpoff => false,
        }
    }
}

impl Part {
    fn op2(self) -> u32 {
        match self {
            Part::Tval => 0,
            Part::Ctl => 1,
            Part::Cval => 2,
        }
    }

    fn name(self) -> &'static str {
        match self {
            Part::Tval => "TVAL",
            Part::Ctl => "CTL",
            Part::Cval => "CVAL",
        }
    }
}

#[cfg(test)]
mod tests {
    use super::*;

    #[test]
    fn the_table_has_its_seventeen_names_and_request_1_three_more() {
        let names: Vec<String> = Register::all().map(Register::name).collect();
        assert_eq!(
            names,
            [
                "CNTPCT_EL0",
                "CNTVCT_EL0",
                "CNTPCTSS_EL0",
                "CNTVCTSS_EL0",
                "CNTP_TVAL_EL0",
                "CNTP_CTL_EL0",
                "CNTP_CVAL_EL0",
                "CNTV_TVAL_EL0",
                "CNTV_CTL_EL0",
                "CNTV_CVAL_EL0",
                "CNTVOFF_EL2",
                "CNTHP_TVAL_EL2",
                "CNTHP_CTL_EL2",
                "CNTHP_CVAL_EL2",
                "CNTHVS_TVAL_EL2",
                "CNTHVS_CTL_EL2",
                "CNTHVS_CVAL_EL2",
                "CNTKCTL_EL1",
                "CNTHCTL_EL2",
                "CNTPOFF_EL2",
            ]
        );
    }
}
