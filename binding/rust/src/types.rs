//! The types of the archive's functions, laid out as C lays them out, and the numbers.

/// What an answer's number means. The state is as it was unless the number is 0.
pub mod number {
    pub const DONE: u8 = 0;
    pub const UNDEFINED: u8 = 1;
    /// Exception class 0x18.
    pub const TRAP_TO_EL1: u8 = 2;
    /// Exception class 0x18.
    pub const TRAP_TO_EL2: u8 = 3;
    pub const NOT_A_TIMER_ACCESS: u8 = 4;
    pub const IMPOSSIBLE_CONTEXT: u8 = 5;
    /// In a journal's record.
    pub const RESERVED_BIT_SET: u8 = 6;
    /// Of a whole run: ragged, or over [`RECORD_LIMIT`](crate::RECORD_LIMIT) records.
    pub const BAD_JOURNAL: u8 = 7;
    /// Of a whole run.
    pub const BUFFER_TOO_SHORT: u8 = 8;
    /// Exception class 0x18; of CNTPOFF_EL2 at EL2 alone.
    pub const TRAP_TO_EL3: u8 = 10;
}

/// The interface that these types are of. A host holds it against [`version`](crate::version)
/// before any other call: where they differ, so may the types.
pub const VERSION: u32 = 1;

/// A journal's record and its answer have this many bytes.
pub const RECORD_BYTES: usize = 24;

/// A journal has at most this many records.
pub const RECORD_LIMIT: usize = 1024;

/// The features that the machine has.
#[repr(C)]
#[derive(Clone, Copy, Debug, Default, PartialEq, Eq)]
pub struct Features {
    pub vhe: bool,
    pub sel2: bool,
    /// And CNTPOFF_EL2.
    pub ecv: bool,
}

/// The controls of SCR_EL3 and HCR_EL2, and the two control registers.
#[repr(C)]
#[derive(Clone, Copy, Debug, Default, PartialEq, Eq)]
pub struct Controls {
    /// SCR_EL3.
    pub ns: bool,
    /// SCR_EL3.
    pub eel2: bool,
    /// SCR_EL3.
    pub ecven: bool,
    /// HCR_EL2.
    pub e2h: bool,
    /// HCR_EL2.
    pub tge: bool,
    pub cntkctl: u32,
    pub cnthctl: u32,
}

/// One timer.
#[repr(C)]
#[derive(Clone, Copy, Debug, Default, PartialEq, Eq)]
pub struct Timer {
    pub cval: u64,
    pub enable: bool,
    pub imask: bool,
}

/// The six timers.
#[repr(C)]
#[derive(Clone, Copy, Debug, Default, PartialEq, Eq)]
pub struct Timers {
    pub cntp: Timer,
    pub cntv: Timer,
    pub cnthp: Timer,
    pub cnthv: Timer,
    pub cnthps: Timer,
    pub cnthvs: Timer,
}

/// All that the desk knows of a machine. Any value is a state; one that cannot be is answered
/// with 5.
#[repr(C)]
#[derive(Clone, Copy, Debug, Default, PartialEq, Eq)]
pub struct State {
    pub features: Features,
    pub controls: Controls,
    pub cntvoff: u64,
    pub cntpoff: u64,
    pub timers: Timers,
}

/// One access: an MRS or MSR word at a level.
#[repr(C)]
#[derive(Clone, Copy, Debug, Default, PartialEq, Eq)]
pub struct Access {
    pub word: u32,
    pub level: u8,
    /// What the register Rt holds. It counts for a write alone.
    pub operand: u64,
    /// The physical count.
    pub count: u64,
}

/// The answer to one access.
#[repr(C)]
#[derive(Clone, Copy, Debug, Default, PartialEq, Eq)]
pub struct Answer {
    /// One of [`number`].
    pub number: u8,
    /// The word's Rt where the number is 0 to 3 or 10, else 0.
    pub rt: u8,
    /// What a read gives; unknown bits as 0.
    pub value: u64,
    /// The unknown bits of the value.
    pub mask: u64,
}

/// The answer to the lines question: which timer lines are raised.
#[repr(C)]
#[derive(Clone, Copy, Debug, Default, PartialEq, Eq)]
pub struct Lines {
    /// 0, or 5 with no line raised.
    pub number: u8,
    pub cntp: bool,
    pub cntv: bool,
    pub cnthp: bool,
    pub cnthv: bool,
    pub cnthps: bool,
    pub cnthvs: bool,
}
