//! Document 01, sentence by sentence, under its headings, and what document 02 adds.
//!
//! The rules in the other files are made of these. Each sentence is a method, so that a deliberate
//! misreading can put another in its place; the rules know of none.

use crate::access::Answer;
use crate::clause::Clause;
use crate::control::Control;
use crate::fields::Layout;
use crate::reading::Reading;
use crate::record::{Record, RECORD_LIMIT};
use crate::register::Register;
use crate::state::{ControlName, Level, State, Timer, TimerName};
use crate::values::{Masked, ENABLE, IMASK, ISTATUS};

/// The paper as it is written.
#[derive(Clone, Copy, Debug)]
pub struct AsWritten;

impl Paper for AsWritten {}

pub trait Paper {
    // 'The machine we model'

    /// Where a control bit stands.
    fn place(&self, control: Control) -> u32 {
        control.place()
    }

    /// Whether a control bit is 1.
    fn bit(&self, state: &State, control: Control) -> bool {
        state.control(control.register()) >> self.place(control) & 1 == 1
    }

    /// **EL2 on**: NS is 1, or SEL2 and EEL2 are 1.
    fn el2_on(&self, state: &State) -> bool {
        state.ns || (state.sel2 && state.eel2)
    }

    /// **host**: EL2 on, E2H 1 and TGE 1.
    fn host(&self, state: &State) -> bool {
        self.el2_on(state) && state.e2h && state.tge
    }

    /// **secure**: NS is 0, or the level is EL3.
    fn secure(&self, state: &State, level: Level) -> bool {
        !state.ns || level == Level::El3
    }

    /// **offset on**: ECV, EL2 on, ECVEn 1, CNTHCTL.ECV 1, not host.
    fn offset_on(&self, state: &State) -> bool {
        state.ecv
            && self.el2_on(state)
            && state.ecven
            && self.bit(state, Control::Ecv)
            && !self.host(state)
    }

    // 'Who may touch what'

    /// Rules are tried in order; the first that fits decides. None is passed over.
    fn tries(&self, _rule: Clause) -> bool {
        true
    }

    /// (a): trap to EL2 if EL2 on and TGE 1, else to EL1.
    fn el0_trap_goes_to_el2(&self, state: &State) -> bool {
        self.el2_on(state) && state.tge
    }

    /// The timer that a rule names is the one that an access to the register reaches.
    fn reached(&self, _register: Register, named: TimerName) -> TimerName {
        named
    }

    /// Physical less CNTVOFF, also where EL2 exists but is not on.
    fn less_cntvoff(&self, state: &State, physical: u64) -> u64 {
        physical.wrapping_sub(state.cntvoff)
    }

    /// Physical less CNTPOFF.
    fn less_cntpoff(&self, state: &State, physical: u64) -> u64 {
        physical.wrapping_sub(state.cntpoff)
    }

    /// CNTPCT and CNTP at EL2 and EL3: physical.
    fn count_above_el1(&self, _state: &State, physical: u64) -> u64 {
        physical
    }

    /// Timers other than CNTP and CNTV: physical.
    fn count_of_others(&self, _state: &State, _timer: TimerName, physical: u64) -> u64 {
        physical
    }

    // 'Values'

    /// TVAL read: ENABLE 0, all 64 bits unknown.
    fn disabled_tval(&self) -> Masked {
        Masked::UNKNOWN
    }

    /// TVAL read: else CVAL less the count, as document 001's steps have it.
    fn tval(&self, timer: &Timer, count: u64) -> u64 {
        timer.cval.wrapping_sub(count)
    }

    /// TVAL write: CVAL becomes the count plus the operand's low 32 bits taken as signed.
    fn write_tval(&self, timer: &mut Timer, count: u64, operand: u64) {
        let signed = i64::from(operand as i32) as u64;
        timer.cval = count.wrapping_add(signed);
    }

    /// CTL: bit 0 ENABLE, bit 1 IMASK, bit 2 ISTATUS, the rest 0.
    fn ctl(&self, timer: &Timer, met: bool) -> u64 {
        let bit = |set, bit| if set { bit } else { 0 };
        bit(timer.enable, ENABLE) | bit(timer.imask, IMASK) | bit(met, ISTATUS)
    }

    /// CTL: a write keeps bits 0 and 1.
    fn write_ctl(&self, timer: &mut Timer, operand: u64) {
        timer.enable = operand & ENABLE != 0;
        timer.imask = operand & IMASK != 0;
    }

    /// CTL: with ENABLE 0, bit 2 is unknown.
    fn disabled_ctl(&self, timer: &Timer) -> Masked {
        Masked {
            value: self.ctl(timer, false),
            mask: ISTATUS,
        }
    }

    /// CVAL is written whole.
    fn write_cval(&self, timer: &mut Timer, operand: u64) {
        timer.cval = operand;
    }

    /// **Timer met**: ENABLE 1 and the count not below CVAL, both unsigned.
    fn met(&self, timer: &Timer, count: u64) -> bool {
        timer.enable && count >= timer.cval
    }

    // 'What the desk answers'

    /// Each record is answered by the rules.
    fn answer(&self, reading: &mut Reading, record: &Record) -> Answer {
        reading.answer_by_the_rules(record)
    }

    /// Order: 7, 8, then for each record 6, 4, 5, then the rules above.
    fn order(&self) -> [u8; 5] {
        [7, 8, 6, 4, 5]
    }

    /// 5: CNTHCTL bits 12 to 14 set without ECV.
    fn bits_with_ecv(&self) -> u32 {
        0x7000
    }

    /// 7: over so many records.
    fn limit(&self) -> usize {
        RECORD_LIMIT
    }

    /// 8: answer buffer shorter than the journal.
    fn too_short(&self, answers: usize, journal: usize) -> bool {
        answers < journal
    }

    // 'The access journal'

    /// Records run in order on one state, and each answer is written into its own part of the lent
    /// buffer. Gives the number of the run.
    fn run(&self, reading: &mut Reading, journal: &[u8], answers: &mut [u8]) -> u8 {
        reading.run_in_order(journal, answers)
    }

    /// A refused record doesn't stop the run.
    fn goes_on_after(&self, _answer: &Answer) -> bool {
        true
    }

    // Document 02, request 1: 'Control registers by access'

    /// The control register that a rule names is the one that an access to the register reaches.
    fn control_reached(
        &self,
        _state: &State,
        _asked: Register,
        _level: Level,
        named: ControlName,
    ) -> ControlName {
        named
    }

    /// A write of CNTKCTL_EL1 at EL2 with E2H 1 is a write of CNTHCTL and keeps CNTHCTL's bits;
    /// CNTHCTL has those of the E2H at the moment of the write.
    fn layout(&self, state: &State, _asked: Register, reached: ControlName) -> Layout {
        Layout::of(reached, state.e2h)
    }

    /// A write stores the bits that Arm's pages name for the features modelled.
    fn stored_bits(&self, layout: Layout, ecv: bool) -> u32 {
        layout.bits(ecv)
    }

    /// A bit that those pages reserve is stored as 0, whatever was held; bits 63..32 are dropped.
    fn control_written(&self, _held: u32, stored: u32, operand: u64) -> u32 {
        operand as u32 & stored
    }

    /// A read gives the 32 bits that the state holds, as they are, also reserved ones.
    fn control_read(&self, held: u32, _stored: u32) -> u64 {
        u64::from(held)
    }

    /// CNTPOFF is read whole.
    fn cntpoff(&self, state: &State) -> u64 {
        state.cntpoff
    }

    /// CNTPOFF is written whole.
    fn write_cntpoff(&self, state: &mut State, operand: u64) {
        state.cntpoff = operand;
    }
}
