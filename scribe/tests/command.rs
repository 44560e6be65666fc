//! The command `scribe` as people use it: journals and answers.

mod common;

use std::ffi::OsStr;
use std::fs;
use std::io::Write;
use std::os::unix::ffi::OsStrExt;
use std::path::Path;
use std::process::{Command, Stdio};

use common::{done, failed, scribe, Scratch};
use scribe::{Answer, Record, RECORD_BYTES, RECORD_LIMIT};

/// A read that is done.
fn done_with(rt: u8, value: u64, mask: u64) -> Answer {
    Answer {
        rt,
        value,
        mask,
        ..Answer::default()
    }
}

/// What is not done, or a write.
fn number(number: u8, rt: u8) -> Answer {
    Answer {
        number,
        rt,
        ..Answer::default()
    }
}

fn packed(answers: &[Answer]) -> Vec<u8> {
    answers.iter().flat_map(Answer::pack).collect()
}

#[test]
fn text_packed_and_shown_is_the_same_text() {
    let text = "EL1 MRS X0, CNTVCT_EL0 @ 1000\n\
                EL1 MSR CNTV_TVAL_EL0, X1 = 0xFFFFFFFF @ 1000\n\
                EL0 MSR CNTV_CVAL_EL0, XZR = 77 @ 0xFFFFFFFFFFFFFFFF\n\
                EL3 MRS XZR, CNTHVS_CTL_EL2 = 5 @ 0\n\
                EL1 MRS X2, CNTKCTL_EL1 @ 1000\n\
                EL1 MSR CNTKCTL_EL1, X2 = 0x303 @ 1000\n\
                EL2 MSR CNTHCTL_EL2, X2 = 0x802 @ 1000\n\
                EL2 MSR CNTPOFF_EL2, X30 = 771 @ 1000\n\
                WORD 0xD53BE000 EL2 = 0 @ 1000 RESERVED 0x3FFFFFFF\n";
    let journal = done(scribe(&["pack"], text.as_bytes()));
    assert_eq!(journal.len(), 9 * RECORD_BYTES);
    let shown = done(scribe(&["show", "--journal", "-"], &journal));
    assert_eq!(String::from_utf8_lossy(&shown), text);
}

#[test]
fn every_journal_comes_back_from_its_text() {
    let mut bytes = [0; RECORD_BYTES];
    for round in 0..2000u64 {
        for (place, byte) in bytes.iter_mut().enumerate() {
            let mixed = (round * 32 + place as u64).wrapping_mul(0x9E37_79B9_7F4A_7C15);
            *byte = (mixed >> 56) as u8;
        }
        if round % 2 == 0 {
            let half = (round / 2) as u32;
            let family = [0xD51B_E200, 0xD518_E100, 0xD51C_E000][half as usize % 3];
            let word = family | (half & 1) << 21 | (half % 256);
            bytes[..4].copy_from_slice(&word.to_be_bytes());
        }
        let text = scribe::words::record(&Record::unpack(&bytes));
        assert_eq!(scribe::pack(&text).as_deref(), Ok(&bytes[..]), "{text}");
    }
}

#[test]
fn a_journal_past_the_limit_is_packed_with_a_note() {
    let line = "EL1 MRS X0, CNTVCT_EL0 @ 1\n";
    let output = scribe(&["pack"], line.repeat(RECORD_LIMIT + 1).as_bytes());
    let said = String::from_utf8_lossy(&output.stderr).to_string();
    assert_eq!(
        said,
        "scribe: note: 1025 records; a run refuses over 1024 with 7\n"
    );
    assert_eq!(done(output).len(), (RECORD_LIMIT + 1) * RECORD_BYTES);
    let at_limit = scribe(&["pack"], line.repeat(RECORD_LIMIT).as_bytes());
    assert!(at_limit.stderr.is_empty());
}

#[test]
fn a_journal_and_its_answers_stand_side_by_side() {
    let text = "EL1 MRS X0, CNTVCT_EL0 @ 1000\n\
                EL1 MRS X0, CNTPCT_EL0 @ 1000\n\
                EL1 MRS X3, CNTV_CTL_EL0 @ 1000\n\
                EL1 MSR CNTVCT_EL0, X3 = 1 @ 1000\n\
                WORD 0xD53BE000 EL1 = 0 @ 1000\n";
    let journal = done(scribe(&["pack"], text.as_bytes()));
    let answers = packed(&[
        done_with(0, 600, 0),
        number(3, 0),
        done_with(3, 0, 4),
        number(1, 3),
        number(4, 0),
    ]);
    let answers = Scratch::new("side-by-side.answers", &answers);
    let shown = done(scribe(
        &["show", "--journal", "-", "--answers", answers.path()],
        &journal,
    ));
    assert_eq!(
        String::from_utf8_lossy(&shown),
        "EL1 MRS X0, CNTVCT_EL0 @ 1000 -> done 600\n\
         EL1 MRS X0, CNTPCT_EL0 @ 1000 -> trap to EL2, class 0x18\n\
         EL1 MRS X3, CNTV_CTL_EL0 @ 1000 -> done 0, unknown: ISTATUS\n\
         EL1 MSR CNTVCT_EL0, X3 = 1 @ 1000 -> Undefined\n\
         WORD 0xD53BE000 EL1 = 0 @ 1000 -> refused, 4: not MRS or MSR, or not in the name table\n"
    );
}

#[test]
fn the_comments_of_a_text_stand_beside_its_answers() {
    let text = "# a title\n\
                EL1 MRS X0, CNTVCT_EL0 @ 1000 # its count\n\
                \n\
                EL1 MRS X0, CNTPCT_EL0 @ 1000   #  a trap  \n\
                EL1 MRS X3, CNTV_CTL_EL0 @ 1000\n\
                WORD 0xD53BE000 EL1 @ 1000 # a longer line does not move the column\n\
                EL1 MSR CNTV_CTL_EL0, XZR @ 1000# over\n";
    let answers = packed(&[
        done_with(0, 600, 0),
        number(3, 0),
        done_with(3, 0, 4),
        number(4, 0),
        number(0, 31),
    ]);
    let answers = Scratch::new("comments.answers", &answers);
    let shown = done(scribe(
        &["show", "--text", "-", "--answers", answers.path()],
        text.as_bytes(),
    ));
    assert_eq!(
        String::from_utf8_lossy(&shown),
        "EL1 MRS X0, CNTVCT_EL0 @ 1000 -> done 600                  # its count\n\
         EL1 MRS X0, CNTPCT_EL0 @ 1000 -> trap to EL2, class 0x18   #  a trap\n\
         EL1 MRS X3, CNTV_CTL_EL0 @ 1000 -> done 0, unknown: ISTATUS\n\
         WORD 0xD53BE000 EL1 = 0 @ 1000 -> refused, 4: not MRS or MSR, or not in the name table   \
         # a longer line does not move the column\n\
         EL1 MSR CNTV_CTL_EL0, XZR = 0 @ 1000 -> done               # over\n"
    );
    let shown = done(scribe(&["show", "--text", "-"], b"WORD 0 EL0 @ 1 # alone"));
    assert_eq!(
        String::from_utf8_lossy(&shown),
        "WORD 0x00000000 EL0 = 0 @ 1   # alone\n"
    );
}

#[test]
fn a_journal_is_told_to_be_text_or_bytes() {
    let text = b"EL1 MRS X0, CNTVCT_EL0 @ 1";
    assert_eq!(done(scribe(&["kind"], text)), b"text\n");
    let journal = done(scribe(&["pack"], text));
    let file = Scratch::new("kind.journal", &journal);
    assert_eq!(done(scribe(&["kind", file.path()], text)), b"bytes\n");
}

#[test]
fn nothing_at_all_is_a_text() {
    assert_eq!(done(scribe(&["kind"], b"")), b"text\n");
}

#[test]
fn a_name_may_be_any_bytes() {
    let odd = OsStr::from_bytes(b"odd-\xFF.txt");
    let file = Path::new(env!("CARGO_TARGET_TMPDIR")).join(odd);
    fs::write(&file, "WORD 0 EL0 @ 1").expect("a file of that name");
    let packed = scribe(&[OsStr::new("pack"), file.as_os_str()], b"");
    fs::remove_file(&file).expect("a file of that name");
    assert_eq!(done(packed).len(), RECORD_BYTES);
    let said = failed(scribe(&[OsStr::new("pack"), odd], b""), 1);
    assert!(said.contains("No such file"), "{said}");
    let said = failed(scribe(&[odd], b""), 2);
    assert_eq!(
        said,
        "scribe: cannot make sense of `odd-\u{FFFD}.txt`; see scribe --help\n"
    );
}

#[test]
fn a_message_that_is_not_taken_changes_no_status() {
    let mute = |arguments: &[&str], input: &[u8]| {
        let full = fs::OpenOptions::new().write(true).open("/dev/full");
        let mut child = Command::new(env!("CARGO_BIN_EXE_scribe"))
            .args(arguments)
            .stdin(Stdio::piped())
            .stdout(Stdio::null())
            .stderr(full.expect("a device"))
            .spawn()
            .expect("scribe runs");
        let mut stdin = child.stdin.take().expect("a pipe");
        stdin.write_all(input).expect("a pipe");
        drop(stdin);
        child.wait().expect("scribe ends").code()
    };
    let long = "WORD 0 EL0 @ 1\n".repeat(RECORD_LIMIT + 1);
    assert_eq!(mute(&["pack"], long.as_bytes()), Some(0));
    assert_eq!(mute(&["pack"], b"EL4"), Some(1));
    assert_eq!(mute(&["unpack"], b""), Some(2));
}

#[test]
fn a_refused_run_has_no_answers() {
    let shown = done(scribe(
        &["show", "--answers", "-", "--journal", "/dev/null"],
        &[],
    ));
    assert!(shown.is_empty());
    let journal = scribe::pack("EL1 MRS X0, CNTVCT_EL0 @ 1").expect("a record");
    let file = Scratch::new("unanswered.journal", &journal);
    let shown = done(scribe(
        &["show", "--journal", file.path(), "--answers", "-"],
        &[],
    ));
    assert_eq!(
        String::from_utf8_lossy(&shown),
        "EL1 MRS X0, CNTVCT_EL0 @ 1 -> no answer\n"
    );
}

#[test]
fn bad_text_is_told_with_line_and_column_and_nothing_is_written() {
    let text = b"EL1 MRS X0, CNTVCT_EL0 @ 1000\n\nEL1 MRS X0, CNTXCT_EL0 @ 1000\n";
    assert_eq!(
        failed(scribe(&["pack"], text), 1),
        "<stdin>:3:13: expected the name of a timer register, found `CNTXCT_EL0`; \
         nearest: CNTPCT_EL0, CNTVCT_EL0\n"
    );
    let file = Scratch::new("bad.txt", b"EL1 MSR CNTV_CTL_EL0, X1 @ 1");
    let said = failed(scribe(&["pack", file.path()], b""), 1);
    assert!(
        said.ends_with("bad.txt:1:26: expected `=`, found `@`\n"),
        "{said}"
    );
    let said = failed(scribe(&["show", "--text", "-"], text), 1);
    assert!(said.starts_with("<stdin>:3:13: expected"), "{said}");
    let said = failed(scribe(&["pack"], b"EL1 \xFF"), 1);
    assert!(said.contains("UTF-8"), "{said}");
}

#[test]
fn bad_bytes_are_refused_and_nothing_is_written() {
    let said = failed(scribe(&["show", "--journal", "-"], &[0; 25]), 1);
    assert!(said.contains("the journal has 25 bytes"), "{said}");
    let said = failed(scribe(&["show", "--answers", "-"], &[0; 23]), 1);
    assert!(said.contains("the answer log has 23 bytes"), "{said}");
    let answers = [0; 2 * RECORD_BYTES];
    let journal = Scratch::new("short.journal", &[0; RECORD_BYTES]);
    let arguments = ["show", "--journal", journal.path(), "--answers", "-"];
    let said = failed(scribe(&arguments, &answers), 1);
    assert!(said.contains("2 answers to a journal of 1"), "{said}");
    let said = failed(scribe(&["pack", "/no/such/file"], b""), 1);
    assert!(said.contains("/no/such/file"), "{said}");
}

#[test]
fn bad_usage_has_its_own_exit_code() {
    for arguments in [
        &[][..],
        &["unpack"],
        &["show"],
        &["show", "--journal"],
        &["show", "journal"],
        &["show", "--text", "-", "--journal", "/dev/null"],
        &["show", "--state", "/dev/null", "--state", "/dev/null"],
        &["show", "--journal", "-", "--state", "-"],
        &["show", "--text", "-", "--answers", "-"],
        &["pack", "--fast"],
        &["pack-state", "--fast"],
        &["pack-state", "a", "b"],
        &["kind", "--fast"],
        &["end", "a", "b"],
    ] {
        let said = failed(scribe(arguments, b""), 2);
        assert!(said.contains("--help"), "{said}");
    }
    let said = failed(scribe(&["\u{1B}[2J"], b""), 2);
    assert!(said.contains(r"`\u{1b}[2J`"), "{said}");
}

#[test]
fn help_has_each_command_and_the_exit_statuses_and_fits_a_terminal() {
    let help = String::from_utf8(done(scribe(&["--help"], b""))).expect("text");
    for said in [
        "scribe pack [FILE]",
        "scribe pack-state [FILE]",
        "scribe end STATE JOURNAL WRITTEN",
        "scribe timeline STATE JOURNAL [--svg FILE] -- PROBE",
        "scribe kind [FILE]",
        "exit: 0 done, 1 ",
    ] {
        assert!(help.contains(said), "{said}");
    }
    assert!(help.lines().all(|line| line.chars().count() <= 80));
}
