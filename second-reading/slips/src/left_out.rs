//! A clause left out.

use reading::{Clause, Paper};

use crate::Slip;

/// Those that a journal can miss.
const OF_JOURNALS: [Clause; 74] = [
    Clause::JournalRagged,
    Clause::ReservedBit,
    Clause::E2hWithoutVhe,
    Clause::Eel2WithoutSel2,
    Clause::EcvenWithoutEcv,
    Clause::CnthctlWithoutEcv,
    Clause::El2NotOn,
    Clause::El1UnderTge,
    Clause::CntpEl0AToEl1,
    Clause::CntpEl0AToEl2,
    Clause::CntpEl0B,
    Clause::CntpEl0C,
    Clause::CntpEl0D,
    Clause::CntpEl0E,
    Clause::CntpEl0F,
    Clause::CntpEl1Pcen,
    Clause::CntpEl1Pten,
    Clause::CntpEl2Secure,
    Clause::CntpEl2NotSecure,
    Clause::CntvEl0AToEl1,
    Clause::CntvEl0AToEl2,
    Clause::CntvEl0B,
    Clause::CntvEl0C,
    Clause::CntvEl0D,
    Clause::CntvEl0E,
    Clause::CntvEl1Tvt,
    Clause::CntvEl2Secure,
    Clause::CntvEl2NotSecure,
    Clause::SsWithoutEcv,
    Clause::CounterWritten,
    Clause::CntpctEl0AToEl1,
    Clause::CntpctEl0AToEl2,
    Clause::CntpctEl0B,
    Clause::CntpctEl0C,
    Clause::CntpctEl0D,
    Clause::CntpctEl1E2h0,
    Clause::CntpctEl1E2h1,
    Clause::CntpctLessOffsetEl0,
    Clause::CntpctLessOffsetEl1,
    Clause::CntvctEl0AToEl1,
    Clause::CntvctEl0AToEl2,
    Clause::CntvctEl0B,
    Clause::CntvctEl0C,
    Clause::CntvctEl1Tvct,
    Clause::CntvctHost,
    Clause::CntvctE2h,
    Clause::CntvoffEl0,
    Clause::CntvoffEl1,
    Clause::CnthpEl0,
    Clause::CnthpEl1,
    Clause::CnthvsMissing,
    Clause::CnthvsEl0,
    Clause::CnthvsEl1,
    Clause::CnthvsEl2NotSecure,
    Clause::CnthvsEl3Eel2,
    Clause::CountCntpLessOffsetEl0,
    Clause::CountCntpLessOffsetEl1,
    Clause::TvalUnknown,
    Clause::CtlUnknown,
    Clause::Rt31Written,
    Clause::MetCountHouseRule,
    Clause::LinesE2hWithoutVhe,
    Clause::LinesEel2WithoutSel2,
    Clause::LinesEcvenWithoutEcv,
    Clause::LinesCnthctlWithoutEcv,
    Clause::LineMasked,
    Clause::CntkctlEl0,
    Clause::CntkctlEl2E2h,
    Clause::CnthctlEl0,
    Clause::CnthctlEl1,
    Clause::CntpoffMissing,
    Clause::CntpoffEl0,
    Clause::CntpoffEl1,
    Clause::CntpoffEl2Ecven,
];

pub(crate) fn slips() -> Vec<Slip> {
    OF_JOURNALS.into_iter().map(left_out).collect()
}

pub(crate) fn left_out(clause: Clause) -> Slip {
    Slip::new(&format!("left out: {clause}"), LeftOut(clause))
}

struct LeftOut(Clause);

impl Paper for LeftOut {
    fn tries(&self, rule: Clause) -> bool {
        rule != self.0
    }
}
