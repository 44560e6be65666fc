//! Elsterkabel: the answer desk for the Arm Generic Timer, for hypervisors in Rust.
//!
//! A trap handler lends its guest's timer [`State`], passes on the [`Access`], and acts on the
//! [`number`] that it gets. Whatever the access, the state and the journal are, there is an
//! answer; nothing has to be checked first.
//!
//! # What is proved
//!
//! The functions of the archive: for all inputs their whole result, the whole next state and
//! every byte of the answer buffer are those of the rulebook (docs/PROMISES.md).
//!
//! # What is not
//!
//! This wrapper, and the back end that made the archive's machine code out of the proved source.
//! The wrapper keeps for its callers what the language of the proofs cannot see, that pointers
//! are good and alone; each `unsafe` block says how.
//!
//! # What a host keeps to
//!
//! It asks [`version`] first, and goes no further if that is not [`VERSION`]. Features and controls of
//! a state are those of the machine that the guest is shown, and not of the core that it runs on. The
//! desk changes no feature and, of the controls, CNTKCTL and CNTHCTL alone, by a write that is
//! permitted.
//!
//! Arm has no trap of CNTKCTL_EL1 from EL1. Where the guest's own instruction reaches the core's
//! register, the host puts what that holds into the state before it asks. Where the host brings the
//! access to the desk by other means, as by an HVC in the instruction's place, the state's is the
//! guest's: after a write the host puts it into the core's register, by which the core judges what EL0
//! does.
//!
//! On bare metal, for aarch64, what is lent and the stack are Normal memory, and SCTLR_ELx.A is 0,
//! since the archive makes unaligned accesses; it needs under 2 KiB of stack beside what `memcpy`
//! takes, and uses neither x18 nor a register for floating point and vectors.
//!
//! # Linking
//!
//! With the feature `link` the build script names `libelsterkabel.a`, which `tools/library` writes
//! for x86-64 and for Arm: in the folder of the environment variable `ELSTERKABEL_ARCHIVE` (a full
//! path), else in the repository's `target/lib`, in the folder of the machine. Without it the host
//! links the archive itself. It needs `memcpy` and nothing else.

#![no_std]

mod calls;
mod types;

pub use calls::{version, word_of};
pub use types::{
    number, Access, Answer, Controls, Features, Lines, State, Timer, Timers, RECORD_BYTES,
    RECORD_LIMIT, VERSION,
};
