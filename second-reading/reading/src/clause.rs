//! The clauses of the paper: each letter, level, refusal and value rule that can decide.

use std::fmt;

use crate::instruction::Direction::{self, Mrs, Msr};
use crate::record::RECORD_LIMIT;
use crate::register::Part::Tval;
use crate::register::Register::*;
use crate::scope::Scope;
use crate::state::TimerName;

const CNTP: Scope = Scope::Parts(Cntp);
const CNTV: Scope = Scope::Parts(Cntv);
const CNTPCT: Scope = Scope::Calls(&[Cntpct, Cntpctss], &[Mrs]);
const CNTVCT: Scope = Scope::Calls(&[Cntvct, Cntvctss], &[Mrs]);
const SS_FORMS: Scope = Scope::Calls(&[Cntpctss, Cntvctss], &Direction::ALL);
const COUNTERS: Scope = Scope::Calls(&[Cntpct, Cntvct, Cntpctss, Cntvctss], &[Msr]);
const CNTVOFF: Scope = Scope::Calls(&[Cntvoff], &Direction::ALL);
const CNTHP: Scope = Scope::Parts(Cnthp);
const CNTHVS: Scope = Scope::Parts(Cnthvs);
const CNTKCTL: Scope = Scope::Calls(&[Cntkctl], &Direction::ALL);
const CNTHCTL: Scope = Scope::Calls(&[Cnthctl], &Direction::ALL);
const CNTPOFF: Scope = Scope::Calls(&[Cntpoff], &Direction::ALL);
const CNTKCTL_READ: Scope = Scope::Calls(&[Cntkctl], &[Mrs]);
const CNTKCTL_WRITTEN: Scope = Scope::Calls(&[Cntkctl], &[Msr]);
const CNTHCTL_WRITTEN: Scope = Scope::Calls(&[Cnthctl], &[Msr]);
/// CNTHCTL is reached by CNTKCTL's name too, at EL2 with E2H 1.
const EITHER_READ: Scope = Scope::Calls(&[Cntkctl, Cnthctl], &[Mrs]);
const EITHER_WRITTEN: Scope = Scope::Calls(&[Cntkctl, Cnthctl], &[Msr]);
const CNTP_TVAL: Scope = Scope::Calls(&[Cntp(Tval)], &Direction::ALL);
const CNTV_TVAL: Scope = Scope::Calls(&[Cntv(Tval)], &Direction::ALL);
const SIX: Scope = Scope::Timers(&TimerName::ALL);
const OTHERS: Scope = Scope::Timers(&[
    TimerName::Cnthp,
    TimerName::Cnthv,
    TimerName::Cnthps,
    TimerName::Cnthvs,
]);
const ONLY_CNTP: Scope = Scope::Timers(&[TimerName::Cntp]);
const ONLY_CNTV: Scope = Scope::Timers(&[TimerName::Cntv]);

macro_rules! clauses {
    ($($name:ident $scope:expr, $words:literal;)*) => {
        /// A clause of the paper that can decide.
        #[derive(Clone, Copy, Debug, PartialEq, Eq, PartialOrd, Ord)]
        pub enum Clause { $($name,)* }

        impl Clause {
            pub const ALL: &'static [Clause] = &[$(Clause::$name,)*];

            pub fn scope(self) -> Scope {
                match self { $(Clause::$name => $scope,)* }
            }
        }

        /// The clause in words close to the paper's.
        impl fmt::Display for Clause {
            fn fmt(&self, f: &mut fmt::Formatter<'_>) -> fmt::Result {
                match self { $(Clause::$name => write!(f, $words),)* }
            }
        }
    };
}

/// A number as the paper writes it, with a comma before the last three digits.
pub struct InPrint(pub usize);

impl fmt::Display for InPrint {
    fn fmt(&self, f: &mut fmt::Formatter<'_>) -> fmt::Result {
        match self.0 {
            small @ ..1000 => write!(f, "{small}"),
            large => write!(f, "{},{:03}", large / 1000, large % 1000),
        }
    }
}

const LIMIT: InPrint = InPrint(RECORD_LIMIT);

clauses! {
    JournalRagged Scope::Once, "7: not a whole number of records";
    JournalTooLong Scope::Once, "7: over {LIMIT} records";
    BufferShort Scope::OutsideJournals, "8: answer buffer shorter than the journal";
    RunDone Scope::Once, "0: the run not refused";
    ReservedBit Scope::Once, "6: reserved bit set";
    NotMrsOrMsr Scope::Once, "4: not MRS or MSR";
    NotInTheTable Scope::Once, "4: not in the name table";
    LevelAbove3 Scope::OutsideJournals, "5: level above 3";
    E2hWithoutVhe Scope::Once, "5: E2H 1 without VHE";
    Eel2WithoutSel2 Scope::Once, "5: EEL2 1 without SEL2";
    EcvenWithoutEcv Scope::Once, "5: ECVEn 1 without ECV";
    CnthctlWithoutEcv Scope::Once, "5: CNTHCTL bits 12 to 14 without ECV";
    El2NotOn Scope::Once, "5: level EL2 with EL2 not on";
    El1UnderTge Scope::Once, "5: level EL1 with EL2 on and TGE 1";

    CntpEl0AToEl1 CNTP, "CNTP EL0 (a): EL1";
    CntpEl0AToEl2 CNTP, "CNTP EL0 (a): EL2 on and TGE 1, EL2";
    CntpEl0B CNTP, "CNTP EL0 (b): EL2";
    CntpEl0C CNTP, "CNTP EL0 (c): EL2";
    CntpEl0D CNTP, "CNTP EL0 (d): EL2";
    CntpEl0E CNTP, "CNTP EL0 (e): CNTHPS";
    CntpEl0F CNTP, "CNTP EL0 (f): CNTHP";
    CntpEl0G CNTP, "CNTP EL0 (g): CNTP";
    CntpEl1Pcen CNTP, "CNTP EL1, E2H 0 and EL1PCEN 0: EL2";
    CntpEl1Pten CNTP, "CNTP EL1, E2H 1 and EL1PTEN 0: EL2";
    CntpEl1 CNTP, "CNTP EL1: CNTP";
    CntpEl2Secure CNTP, "CNTP EL2, E2H 1 and secure: CNTHPS";
    CntpEl2NotSecure CNTP, "CNTP EL2, E2H 1 and not secure: CNTHP";
    CntpEl2 CNTP, "CNTP EL2: CNTP";
    CntpEl3 CNTP, "CNTP EL3: CNTP";

    CntvEl0AToEl1 CNTV, "CNTV EL0 (a): EL1";
    CntvEl0AToEl2 CNTV, "CNTV EL0 (a): EL2 on and TGE 1, EL2";
    CntvEl0B CNTV, "CNTV EL0 (b): EL2";
    CntvEl0C CNTV, "CNTV EL0 (c): EL2";
    CntvEl0D CNTV, "CNTV EL0 (d): CNTHVS";
    CntvEl0E CNTV, "CNTV EL0 (e): CNTHV";
    CntvEl0F CNTV, "CNTV EL0 (f): CNTV";
    CntvEl1Tvt CNTV, "CNTV EL1, EL1TVT 1: EL2";
    CntvEl1 CNTV, "CNTV EL1: CNTV";
    CntvEl2Secure CNTV, "CNTV EL2, E2H 1 and secure: CNTHVS";
    CntvEl2NotSecure CNTV, "CNTV EL2, E2H 1 and not secure: CNTHV";
    CntvEl2 CNTV, "CNTV EL2: CNTV";
    CntvEl3 CNTV, "CNTV EL3: CNTV";

    SsWithoutEcv SS_FORMS, "SS forms Undefined without ECV";
    CounterWritten COUNTERS, "counters Undefined for MSR";

    CntpctEl0AToEl1 CNTPCT, "CNTPCT EL0 (a): EL1";
    CntpctEl0AToEl2 CNTPCT, "CNTPCT EL0 (a): EL2 on and TGE 1, EL2";
    CntpctEl0B CNTPCT, "CNTPCT EL0 (b): EL2";
    CntpctEl0C CNTPCT, "CNTPCT EL0 (c): EL2";
    CntpctEl0D CNTPCT, "CNTPCT EL0 (d): EL2";
    CntpctEl0 CNTPCT, "CNTPCT EL0: allowed";
    CntpctEl1E2h0 CNTPCT, "CNTPCT EL1, E2H 0 and EL1PCTEN 0: EL2";
    CntpctEl1E2h1 CNTPCT, "CNTPCT EL1, E2H 1 and EL1PCTEN 0: EL2";
    CntpctEl1 CNTPCT, "CNTPCT EL1: allowed";
    CntpctEl2 CNTPCT, "CNTPCT EL2: allowed";
    CntpctEl3 CNTPCT, "CNTPCT EL3: allowed";
    CntpctLessOffsetEl0 CNTPCT, "CNTPCT value at EL0, offset on: less CNTPOFF";
    CntpctLessOffsetEl1 CNTPCT, "CNTPCT value at EL1, offset on: less CNTPOFF";
    CntpctPhysicalEl0 CNTPCT, "CNTPCT value at EL0, offset not on: physical";
    CntpctPhysicalEl1 CNTPCT, "CNTPCT value at EL1, offset not on: physical";
    CntpctPhysicalAbove CNTPCT, "CNTPCT value at EL2 and EL3: physical";

    CntvctEl0AToEl1 CNTVCT, "CNTVCT EL0 (a): EL1";
    CntvctEl0AToEl2 CNTVCT, "CNTVCT EL0 (a): EL2 on and TGE 1, EL2";
    CntvctEl0B CNTVCT, "CNTVCT EL0 (b): EL2";
    CntvctEl0C CNTVCT, "CNTVCT EL0 (c): EL2";
    CntvctEl0 CNTVCT, "CNTVCT EL0: allowed";
    CntvctEl1Tvct CNTVCT, "CNTVCT EL1, EL1TVCT 1: EL2";
    CntvctEl1 CNTVCT, "CNTVCT EL1: allowed";
    CntvctEl2 CNTVCT, "CNTVCT EL2: allowed";
    CntvctEl3 CNTVCT, "CNTVCT EL3: allowed";
    CntvctHost CNTVCT, "CNTVCT value for host at EL0: physical";
    CntvctE2h CNTVCT, "CNTVCT value at EL2 with E2H 1: physical";
    CntvctLessOffset CNTVCT, "CNTVCT value, EL2 on: less CNTVOFF";
    CntvctLessOffsetEl2Off CNTVCT, "CNTVCT value, EL2 not on: less CNTVOFF";

    CntvoffEl0 CNTVOFF, "CNTVOFF EL0: Undefined";
    CntvoffEl1 CNTVOFF, "CNTVOFF EL1: Undefined";
    CntvoffEl2 CNTVOFF, "CNTVOFF EL2: allowed";
    CntvoffEl3 CNTVOFF, "CNTVOFF EL3: allowed";
    CnthpEl0 CNTHP, "CNTHP EL0: Undefined";
    CnthpEl1 CNTHP, "CNTHP EL1: Undefined";
    CnthpEl2 CNTHP, "CNTHP EL2: allowed";
    CnthpEl3 CNTHP, "CNTHP EL3: allowed";
    CnthvsMissing CNTHVS, "CNTHVS without VHE or SEL2: Undefined";
    CnthvsEl0 CNTHVS, "CNTHVS EL0: Undefined";
    CnthvsEl1 CNTHVS, "CNTHVS EL1: Undefined";
    CnthvsEl2NotSecure CNTHVS, "CNTHVS EL2, not secure: Undefined";
    CnthvsEl2 CNTHVS, "CNTHVS EL2: allowed";
    CnthvsEl3Eel2 CNTHVS, "CNTHVS EL3, EEL2 0: Undefined";
    CnthvsEl3 CNTHVS, "CNTHVS EL3: allowed";

    CountCntpLessOffsetEl0 CNTP_TVAL, "count for CNTP at EL0, offset on: less CNTPOFF";
    CountCntpLessOffsetEl1 CNTP_TVAL, "count for CNTP at EL1, offset on: less CNTPOFF";
    CountCntpEl0 CNTP_TVAL, "count for CNTP at EL0, offset not on: physical";
    CountCntpEl1 CNTP_TVAL, "count for CNTP at EL1, offset not on: physical";
    CountCntpEl2 CNTP_TVAL, "count for CNTP at EL2: physical";
    CountCntpEl3 CNTP_TVAL, "count for CNTP at EL3: physical";
    CountCntv CNTV_TVAL, "count for CNTV, EL2 on: less CNTVOFF";
    CountCntvEl2Off CNTV_TVAL, "count for CNTV, EL2 not on: less CNTVOFF";
    CountPhysical OTHERS, "count for the other timers: physical";

    TvalUnknown SIX, "TVAL read, ENABLE 0: 64 bits unknown";
    TvalRead SIX, "TVAL read, ENABLE 1: CVAL less the count";
    TvalWritten SIX, "TVAL write: count plus signed low 32 bits";
    CtlUnknown SIX, "CTL read, ENABLE 0: bit 2 unknown";
    CtlMet SIX, "CTL read, ENABLE 1 and met: ISTATUS 1";
    CtlNotMet SIX, "CTL read, ENABLE 1 and not met: ISTATUS 0";
    CtlAtCval SIX, "CTL read, ENABLE 1 and the count just at CVAL: met";
    CtlBelowCval SIX, "CTL read, ENABLE 1 and the count 1 below CVAL: not met";
    CtlWritten SIX, "CTL write: bits 0 and 1 kept";
    CvalRead SIX, "CVAL read whole";
    CvalWritten SIX, "CVAL written whole";
    CntvoffRead Scope::Once, "CNTVOFF read whole";
    CntvoffWritten Scope::Once, "CNTVOFF written whole";
    Rt31Read Scope::Every(Mrs), "MRS with Rt 31 answers like any other";
    Rt31Written Scope::Every(Msr), "MSR with Rt 31 writes 0";

    MetCountCntv ONLY_CNTV, "met, CNTV: physical less CNTVOFF";
    MetCountHouseRule ONLY_CNTP, "met, CNTP with offset on: less CNTPOFF (house rule)";
    MetCountCntp ONLY_CNTP, "met, CNTP with offset not on: physical";
    MetCountPhysical OTHERS, "met, other timers: physical";

    LinesE2hWithoutVhe Scope::Once, "lines, 5: E2H 1 without VHE";
    LinesEel2WithoutSel2 Scope::Once, "lines, 5: EEL2 1 without SEL2";
    LinesEcvenWithoutEcv Scope::Once, "lines, 5: ECVEn 1 without ECV";
    LinesCnthctlWithoutEcv Scope::Once, "lines, 5: CNTHCTL bits 12 to 14 without ECV";
    LineDisabled SIX, "line: ENABLE 0, not raised";
    LineNotMet SIX, "line: not met, not raised";
    LineMasked SIX, "line: met with IMASK 1, not raised";
    LineRaised SIX, "line: met with IMASK 0, raised";
    LineAtCval SIX, "line: ENABLE 1 and the count just at CVAL: met";
    LineBelowCval SIX, "line: ENABLE 1 and the count 1 below CVAL: not met";

    // Document 02, request 1.
    CntkctlEl0 CNTKCTL, "CNTKCTL EL0: Undefined";
    CntkctlEl1 CNTKCTL, "CNTKCTL EL1: itself, never trapped";
    CntkctlEl2E2h CNTKCTL, "CNTKCTL EL2, E2H 1: CNTHCTL";
    CntkctlEl2 CNTKCTL, "CNTKCTL EL2: itself";
    CntkctlEl3 CNTKCTL, "CNTKCTL EL3: itself";
    CnthctlEl0 CNTHCTL, "CNTHCTL EL0: Undefined";
    CnthctlEl1 CNTHCTL, "CNTHCTL EL1: Undefined";
    CnthctlEl2 CNTHCTL, "CNTHCTL EL2: itself";
    CnthctlEl3 CNTHCTL, "CNTHCTL EL3: itself";
    CntpoffMissing CNTPOFF, "CNTPOFF without ECV: Undefined";
    CntpoffEl0 CNTPOFF, "CNTPOFF EL0: Undefined";
    CntpoffEl1 CNTPOFF, "CNTPOFF EL1: Undefined";
    CntpoffEl2Ecven CNTPOFF, "CNTPOFF EL2, ECVEn 0: trap to EL3";
    CntpoffEl2 CNTPOFF, "CNTPOFF EL2: itself";
    CntpoffEl3 CNTPOFF, "CNTPOFF EL3: itself";

    CntkctlWritten CNTKCTL_WRITTEN, "CNTKCTL write without ECV: its fields, else 0";
    CntkctlWrittenEcv CNTKCTL_WRITTEN, "CNTKCTL write with ECV: its fields, else 0";
    CnthctlWrittenE2h0 CNTHCTL_WRITTEN, "CNTHCTL write, E2H 0 without ECV: its fields, else 0";
    CnthctlWrittenE2h0Ecv CNTHCTL_WRITTEN, "CNTHCTL write, E2H 0 with ECV: its fields, else 0";
    CnthctlWrittenE2h1 EITHER_WRITTEN, "CNTHCTL write, E2H 1 without ECV: its fields, else 0";
    CnthctlWrittenE2h1Ecv EITHER_WRITTEN, "CNTHCTL write, E2H 1 with ECV: its fields, else 0";
    ReservedWritten EITHER_WRITTEN, "control write, a reserved bit 1: stored as 0";
    UpperHalfWritten EITHER_WRITTEN, "control write, bits 63..32 not 0: dropped";
    CntkctlRead CNTKCTL_READ, "CNTKCTL read: the 32 bits held";
    CnthctlRead EITHER_READ, "CNTHCTL read: the 32 bits held";
    ReservedRead EITHER_READ, "control read, a reserved bit held: as it is";
    CntpoffRead Scope::Once, "CNTPOFF read whole";
    CntpoffWritten Scope::Once, "CNTPOFF written whole";
}

#[cfg(test)]
mod tests {
    use super::*;

    #[test]
    fn a_number_is_printed_as_the_paper_prints_it() {
        let printed = [24, 999, 1000, 1024, 12_345].map(|number| InPrint(number).to_string());
        assert_eq!(printed, ["24", "999", "1,000", "1,024", "12,345"]);
    }
}
