//! Document 01, 'The machine we model': the control bits and where they stand.

use std::fmt;

use crate::state::ControlName;

macro_rules! controls {
    ($($control:ident $register:ident $name:literal $place:literal;)*) => {
        /// A control bit. One that both registers have is known by its register, EL1PCTEN by its
        /// E2H.
        #[derive(Clone, Copy, Debug, PartialEq, Eq)]
        pub enum Control { $($control,)* }

        impl Control {
            pub const ALL: &'static [Control] = &[$(Control::$control,)*];

            /// The bit's number in its register.
            pub fn place(self) -> u32 {
                match self { $(Control::$control => $place,)* }
            }

            /// The register that it stands in.
            pub fn register(self) -> ControlName {
                match self { $(Control::$control => ControlName::$register,)* }
            }

            pub(crate) fn name(self) -> &'static str {
                match self { $(Control::$control => $name,)* }
            }
        }
    };
}

controls! {
    CntkctlEl0pcten Cntkctl "EL0PCTEN" 0;
    CntkctlEl0vcten Cntkctl "EL0VCTEN" 1;
    CntkctlEl0vten Cntkctl "EL0VTEN" 8;
    CntkctlEl0pten Cntkctl "EL0PTEN" 9;

    // With E2H 0.
    El1pctenE2h0 Cnthctl "EL1PCTEN" 0;
    El1pcen Cnthctl "EL1PCEN" 1;

    // With E2H 1.
    CnthctlEl0pcten Cnthctl "EL0PCTEN" 0;
    CnthctlEl0vcten Cnthctl "EL0VCTEN" 1;
    CnthctlEl0vten Cnthctl "EL0VTEN" 8;
    CnthctlEl0pten Cnthctl "EL0PTEN" 9;
    El1pctenE2h1 Cnthctl "EL1PCTEN" 10;
    El1pten Cnthctl "EL1PTEN" 11;

    // Either way.
    Ecv Cnthctl "ECV" 12;
    El1tvt Cnthctl "EL1TVT" 13;
    El1tvct Cnthctl "EL1TVCT" 14;
}

impl fmt::Display for Control {
    fn fmt(&self, f: &mut fmt::Formatter<'_>) -> fmt::Result {
        let (register, name) = (self.register().name(), self.name());
        write!(f, "{register}.{name} in bit {}", self.place())
    }
}
