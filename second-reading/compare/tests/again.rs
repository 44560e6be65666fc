//! The command `again` as people use it.

use std::process::{Command, Output};

/// Nothing is written for this one, its input being shorter than a state image.
const SHORT_IMAGE: &str = "6";

fn again(arguments: &[&str], probe: &str) -> Output {
    Command::new(env!("CARGO_BIN_EXE_again"))
        .args(arguments)
        .env("PROBE", probe)
        .output()
        .expect("again runs")
}

/// The exit code, and what was said on standard output and standard error.
fn said(output: Output) -> (Option<i32>, String) {
    let text = [output.stdout, output.stderr].concat();
    (
        output.status.code(),
        String::from_utf8_lossy(&text).into_owned(),
    )
}

#[test]
fn the_same_bytes_and_a_good_end_are_no_difference() {
    let (code, text) = said(again(&[SHORT_IMAGE], "/bin/true"));
    assert!(text.ends_with("\nno difference\n"), "{text}");
    assert_eq!(code, Some(0));
}

#[test]
fn a_bad_end_is_a_difference_whatever_was_written() {
    let (code, text) = said(again(&[SHORT_IMAGE], "/bin/false"));
    assert!(
        text.contains("case 0x0000000000000006 ended badly:\n  probe: exit status: 1"),
        "{text}"
    );
    assert_eq!(code, Some(1));
}

#[test]
fn other_bytes_are_a_difference() {
    let (code, text) = said(again(&["7"], "/bin/true"));
    assert!(
        text.contains("probe wrote 0 bytes where 7330 were expected"),
        "{text}"
    );
    assert_eq!(code, Some(1));
}

#[test]
fn a_missing_program_is_named() {
    let (code, text) = said(again(&[SHORT_IMAGE], "/no/such/program"));
    assert!(text.contains("/no/such/program"), "{text}");
    assert_eq!(code, Some(1));
}

#[test]
fn bad_usage_has_its_own_exit_code() {
    for arguments in [&[][..], &["soon"], &["--hlep"], &["1", "folder", "more"]] {
        let (code, text) = said(again(arguments, "/bin/true"));
        assert!(text.contains("see again --help"), "{text}");
        assert_eq!(code, Some(2), "{arguments:?}");
    }
}
