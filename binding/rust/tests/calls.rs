//! The wrapper calls the archive: readings from the bench, control registers, a run and its two
//! refusals, levels that no journal can hold, and the lines. What is expected stands in
//! docs/RULES.md.

use elsterkabel::{
    number, version, word_of, Access, Answer, Controls, Features, Lines, State, Timer, Timers,
    RECORD_BYTES, RECORD_LIMIT, VERSION,
};

const EL1: u8 = 1;
const EL2: u8 = 2;
const MRS_CNTVCT: u32 = 0xD53B_E040;
const MRS_CNTPCT: u32 = 0xD53B_E020;
const MRS_CNTV_CTL: u32 = 0xD53B_E320;
const MSR_CNTV_TVAL: u32 = 0xD51B_E301;
const MRS_CNTKCTL: u32 = 0xD538_E100;
const MSR_CNTKCTL: u32 = 0xD518_E101;
const MRS_CNTPOFF: u32 = 0xD53C_E0C2;

/// What fills a buffer that is lent, so that a byte written shows.
const UNTOUCHED: u8 = 0xEE;

/// The state in which each of the readings begins.
fn bench() -> State {
    State {
        features: Features {
            vhe: true,
            sel2: true,
            ecv: false,
        },
        controls: Controls {
            ns: true,
            cntkctl: 0x303,
            ..Controls::default()
        },
        cntvoff: 400,
        ..State::default()
    }
}

/// The bench with CNTV's compare value as reading 4 leaves it.
fn bench_after_reading_4() -> State {
    let mut state = bench();
    state.timers.cntv.cval = 599;
    state
}

fn access(word: u32, level: u8, operand: u64, count: u64) -> Access {
    Access {
        word,
        level,
        operand,
        count,
    }
}

fn done(value: u64) -> Answer {
    Answer {
        value,
        ..Answer::default()
    }
}

fn numbered(number: u8) -> Answer {
    Answer {
        number,
        ..Answer::default()
    }
}

/// A record at EL1.
fn record(word: u32, operand: u64, count: u64) -> Vec<u8> {
    let mut bytes = word.to_be_bytes().to_vec();
    bytes.extend([EL1 << 6, 0, 0, 0]);
    bytes.extend(operand.to_be_bytes());
    bytes.extend(count.to_be_bytes());
    bytes
}

/// Readings 1 and 2 as a journal.
fn two_readings() -> Vec<u8> {
    [record(MRS_CNTVCT, 0, 1000), record(MRS_CNTPCT, 0, 1000)].concat()
}

fn assert_refused(journal: &[u8], buffer_bytes: usize, number: u8) {
    let mut state = bench_after_reading_4();
    let mut answers = vec![UNTOUCHED; buffer_bytes];
    assert_eq!(state.run(journal, &mut answers), number);
    assert_eq!(state, bench_after_reading_4());
    assert_eq!(answers, vec![UNTOUCHED; buffer_bytes]);
}

#[test]
fn reading_1_the_virtual_count() {
    let mut state = bench();
    assert_eq!(state.access(access(MRS_CNTVCT, EL1, 0, 1000)), done(600));
    assert_eq!(state, bench());
}

#[test]
fn reading_2_the_physical_count_is_trapped() {
    let mut state = bench();
    let trapped = numbered(number::TRAP_TO_EL2);
    assert_eq!(state.access(access(MRS_CNTPCT, EL1, 0, 1000)), trapped);
    assert_eq!(state, bench());
}

#[test]
fn reading_4_a_tval_write_is_found_in_the_lent_state() {
    let mut state = bench();
    let written = Answer { rt: 1, ..done(0) };
    assert_eq!(
        state.access(access(MSR_CNTV_TVAL, EL1, 0xFFFF_FFFF, 1000)),
        written
    );
    assert_eq!(state, bench_after_reading_4());
}

#[test]
fn reading_8_the_status_of_a_disabled_timer_is_unknown() {
    let unknown = Answer { mask: 4, ..done(0) };
    assert_eq!(bench().access(access(MRS_CNTV_CTL, EL1, 0, 1000)), unknown);
}

#[test]
fn reading_12_a_wrap_a_host_and_a_stranger() {
    let wrapped = done(0xFFFF_FFFF_FFFF_FE75);
    assert_eq!(bench().access(access(MRS_CNTVCT, EL1, 0, 5)), wrapped);

    let mut host = bench();
    host.controls.e2h = true;
    assert_eq!(host.access(access(MRS_CNTVCT, EL2, 0, 1000)), done(1000));

    let stranger = numbered(number::NOT_A_TIMER_ACCESS);
    assert_eq!(bench().access(access(0xD53B_E000, EL1, 0, 1000)), stranger);
}

#[test]
fn a_write_of_cntkctl_is_found_in_the_lent_state_and_keeps_no_reserved_bit() {
    let mut state = bench();
    let written = Answer { rt: 1, ..done(0) };
    let all_ones = access(MSR_CNTKCTL, EL1, u64::MAX, 1000);
    assert_eq!(state.access(all_ones), written);
    let mut moved = bench();
    moved.controls.cntkctl = 0x3FF;
    assert_eq!(state, moved);
    assert_eq!(state.access(access(MRS_CNTKCTL, EL1, 0, 1000)), done(0x3FF));
}

#[test]
fn cntpoff_at_el2_is_a_trap_to_el3_until_ecven_is_set() {
    let mut state = bench();
    state.features.ecv = true;
    state.cntpoff = 77;
    let read = access(MRS_CNTPOFF, EL2, 0, 1000);
    let trapped = Answer {
        rt: 2,
        ..numbered(number::TRAP_TO_EL3)
    };
    assert_eq!(state.access(read), trapped);
    state.controls.ecven = true;
    assert_eq!(state.access(read), Answer { rt: 2, ..done(77) });
}

#[test]
fn a_level_above_3_cannot_be() {
    for level in [4, 255] {
        let mut state = bench();
        let impossible = numbered(number::IMPOSSIBLE_CONTEXT);
        assert_eq!(state.access(access(MRS_CNTVCT, level, 0, 1000)), impossible);
        assert_eq!(state, bench());
    }
}

#[test]
fn a_run_writes_its_answers_and_no_byte_behind_them() {
    let mut expected = [0; 2 * RECORD_BYTES + 3];
    expected[14..16].copy_from_slice(&[0x02, 0x58]);
    expected[RECORD_BYTES] = 0x30;
    expected[2 * RECORD_BYTES..].fill(UNTOUCHED);

    let mut state = bench();
    let mut answers = [UNTOUCHED; 2 * RECORD_BYTES + 3];
    assert_eq!(state.run(&two_readings(), &mut answers), number::DONE);
    assert_eq!(answers, expected);
    assert_eq!(state, bench());
}

#[test]
fn a_run_leaves_its_writes_in_the_lent_state() {
    let mut expected = [0; RECORD_BYTES];
    expected[1] = 0x80;

    let mut state = bench();
    let mut answers = [UNTOUCHED; RECORD_BYTES];
    let journal = record(MSR_CNTV_TVAL, 0xFFFF_FFFF, 1000);
    assert_eq!(state.run(&journal, &mut answers), number::DONE);
    assert_eq!(answers, expected);
    assert_eq!(state, bench_after_reading_4());
}

#[test]
fn an_empty_journal_needs_no_buffer() {
    let mut state = bench();
    assert_eq!(state.run(&[], &mut []), number::DONE);
    assert_eq!(state, bench());
}

#[test]
fn a_run_takes_as_many_records_as_the_limit() {
    let mut state = bench();
    let mut answers = vec![UNTOUCHED; RECORD_LIMIT * RECORD_BYTES];
    let journal = record(MRS_CNTVCT, 0, 1000).repeat(RECORD_LIMIT);
    assert_eq!(state.run(&journal, &mut answers), number::DONE);
    for answer in answers.chunks(RECORD_BYTES) {
        assert_eq!(answer[8..16], 600_u64.to_be_bytes());
    }
}

#[test]
fn a_bad_journal_changes_nothing() {
    let journal = record(MSR_CNTV_TVAL, 5, 1000).repeat(RECORD_LIMIT + 1);
    assert_refused(&journal, journal.len(), number::BAD_JOURNAL);
    let ragged = &journal[..RECORD_BYTES + 1];
    assert_refused(ragged, 2 * RECORD_BYTES, number::BAD_JOURNAL);
    assert_refused(ragged, 0, number::BAD_JOURNAL);
}

#[test]
fn a_buffer_one_byte_too_short_stays_as_it_was() {
    let journal = record(MSR_CNTV_TVAL, 5, 1000).repeat(2);
    let short = journal.len() - 1;
    assert_refused(&journal, short, number::BUFFER_TOO_SHORT);
    assert_refused(&journal, 0, number::BUFFER_TOO_SHORT);
}

/// The bench with one timer enabled.
fn enabled(choose: fn(&mut Timers) -> &mut Timer, cval: u64) -> State {
    let mut state = bench();
    *choose(&mut state.timers) = Timer {
        cval,
        enable: true,
        imask: false,
    };
    state
}

/// The answer with one line raised.
fn raised(choose: fn(&mut Lines) -> &mut bool) -> Lines {
    let mut lines = Lines::default();
    *choose(&mut lines) = true;
    lines
}

macro_rules! assert_raises_its_own {
    ($($timer:ident),+) => {
        $(
            let lines = enabled(|timers| &mut timers.$timer, 500).lines(1000);
            assert_eq!(lines, raised(|lines| &mut lines.$timer));
        )+
    };
}

#[test]
fn each_timer_raises_its_own_line() {
    assert_raises_its_own!(cntp, cntv, cnthp, cnthv, cnthps, cnthvs);
}

#[test]
fn a_line_is_raised_from_its_count_on_unless_it_is_masked() {
    let mut state = enabled(|timers| &mut timers.cntv, 600);
    assert_eq!(state.lines(999), Lines::default());
    assert_eq!(state.lines(1000), raised(|lines| &mut lines.cntv));
    state.timers.cntv.imask = true;
    assert_eq!(state.lines(1000), Lines::default());
}

#[test]
fn a_state_that_cannot_be_raises_no_line() {
    let mut state = enabled(|timers| &mut timers.cntv, 600);
    state.features.vhe = false;
    state.controls.e2h = true;
    let refused = Lines {
        number: number::IMPOSSIBLE_CONTEXT,
        ..Lines::default()
    };
    assert_eq!(state.lines(1000), refused);
}

#[test]
fn a_syndrome_gives_the_word() {
    assert_eq!(word_of(0x0032_F801), MRS_CNTPCT);
    assert_eq!(word_of(0x0030_F826), MSR_CNTV_TVAL);
}

#[test]
fn a_syndrome_of_another_instruction_gets_4() {
    let stranger = numbered(number::NOT_A_TIMER_ACCESS);
    let sys = access(word_of(0x0012_F801), EL1, 0, 1000);
    assert_eq!(bench().access(sys), stranger);
}

#[test]
fn the_archive_is_of_the_bindings_interface() {
    assert_eq!(version(), VERSION);
}
