//! The archive's functions, as functions and methods of [`State`] that cannot be called wrongly, if
//! the archive is of this interface.

use crate::types::{Access, Answer, Lines, State};

// Why what comes back is sound, for all: the signatures are those of binding/c/elsterkabel.h, the
// tests hold the layout of the types against it, and each bool that is stored is 0 or 1, since the
// language of the archive's source has no other.
unsafe extern "C" {
    fn elsterkabel_access_in(state: *mut State, access: *const Access, answer: *mut Answer);

    fn elsterkabel_run_in(
        state: *mut State,
        journal: *const u8,
        journal_length: usize,
        answers: *mut u8,
        answers_length: usize,
    ) -> u8;

    fn elsterkabel_lines(state: *const State, count: u64, lines: *mut Lines);

    // Numbers in and out alone, so any call of the two is sound.
    safe fn elsterkabel_word_of(iss: u32) -> u32;

    safe fn elsterkabel_version() -> u32;
}

/// The MRS or MSR word of a trap, from the syndrome of its exception of class 0x18: the low bits of
/// ESR_ELx, of which those above 21 do not count. A syndrome of another instruction gives a word
/// that is answered with 4.
#[inline]
#[must_use]
pub fn word_of(iss: u32) -> u32 {
    elsterkabel_word_of(iss)
}

/// The interface that the archive is of.
#[inline]
#[must_use = "an archive of another interface is not to be called"]
pub fn version() -> u32 {
    elsterkabel_version()
}

impl State {
    /// The answer to one access, which the state takes.
    #[inline]
    #[must_use = "the number says what the guest is due"]
    pub fn access(&mut self, access: Access) -> Answer {
        let mut answer = Answer::default();
        // SAFETY: the pointers come from references, so none is null and each is aligned, and what
        // is behind them is readable, and writable but for the access, whole. The access and the
        // answer are this call's own and the state is borrowed exclusively, so no two overlap and
        // no other thread touches them. A Rust bool is 0 or 1. The answer and the state that are
        // left are sound as the declarations say.
        unsafe { elsterkabel_access_in(self, &access, &mut answer) };
        answer
    }

    /// A journal of accesses, run in order on the state; answer i is written to part i of the
    /// buffer, in parts of [`RECORD_BYTES`](crate::RECORD_BYTES), and no other byte of it is
    /// touched. Gives 0, 7 or 8; on 7 and 8 nothing changes.
    #[inline]
    #[must_use = "on 7 and 8 there is no answer"]
    pub fn run(&mut self, journal: &[u8], answers: &mut [u8]) -> u8 {
        // SAFETY: the pointers come from references, so none is null and each is aligned, that
        // of an empty slice too. The state and the buffer are readable and writable, the journal
        // is readable, each for the whole length that goes with it. The state and the buffer are
        // borrowed exclusively, so no two of the three overlap and no other thread touches those
        // two; nor does one write the journal while it is borrowed. A Rust bool is 0 or 1. The state
        // that is left is sound as the declarations say; any byte is sound in the buffer.
        unsafe {
            elsterkabel_run_in(
                self,
                journal.as_ptr(),
                journal.len(),
                answers.as_mut_ptr(),
                answers.len(),
            )
        }
    }

    /// Which timer lines are raised at a physical count.
    #[inline]
    #[must_use]
    pub fn lines(&self, count: u64) -> Lines {
        let mut lines = Lines::default();
        // SAFETY: the pointers come from references, so none is null and each is aligned; the state
        // is readable and the lines are readable and writable, whole. The lines are this call's
        // own, so the two do not overlap; no other thread touches them, nor writes the state while
        // it is borrowed. A Rust bool is 0 or 1. The lines that are left are sound as the
        // declarations say.
        unsafe { elsterkabel_lines(self, count, &mut lines) };
        lines
    }
}
