//! The command `scribe timeline`, with programs that stand in for `probe`.

mod common;

use std::fs;
use std::path::Path;

use common::{done, failed, scribe, Scratch};
use scribe::{Answer, State, RECORD_LIMIT};

/// Files with the bench's start and a journal.
fn inputs(name: &str, journal: &str) -> (Scratch, Scratch) {
    let state = Scratch::new(&format!("{name}.image"), &State::bench().to_image());
    let journal = scribe::pack(journal).expect("a journal");
    let journal = Scratch::new(&format!("{name}.journal"), &journal);
    (state, journal)
}

const ONE: &str = "EL1 MRS X0, CNTVCT_EL0 @ 1000";

/// What `probe` writes on so many records, each read being done with 7.
fn written(records: usize) -> Vec<u8> {
    let seven = Answer {
        value: 7,
        ..Answer::default()
    };
    let mut written = seven.pack().repeat(records);
    written.extend(State::bench().to_image());
    written.extend([0, 2]);
    written
}

#[test]
fn what_the_program_says_is_drawn() {
    let (state, journal) = inputs("drawn", ONE);
    let two = Scratch::new("two.written", &written(2));
    let three = Scratch::new("three.written", &written(3));
    let svg = Path::new(env!("CARGO_TARGET_TMPDIR")).join("drawn.svg");
    let svg = svg.to_str().expect("a plain path");
    // A look at the state alone is two records, and one after a record three.
    let script = "if [ $(wc -c) = 176 ]; then cat $0; else cat $1; fi";
    let probe = ["sh", "-c", script, two.path(), three.path()];
    let mut arguments = vec!["timeline", state.path(), journal.path(), "--svg", svg, "--"];
    arguments.extend(probe);
    let drawn = done(scribe(&arguments, b""));
    let drawn = String::from_utf8(drawn).expect("text");
    assert!(
        drawn.starts_with(
            "count virtual TVAL CNTV  records\n \
              1000       7    7    |  1        start\n\n"
        ),
        "{drawn}"
    );
    let picture = fs::read_to_string(svg).expect("a picture");
    assert!(picture.starts_with("<svg ") && picture.ends_with("</svg>\n"));
    fs::remove_file(svg).expect("a picture");
}

#[test]
fn a_program_that_fails_is_told_and_nothing_is_drawn() {
    let (state, journal) = inputs("failing", ONE);
    let svg = Path::new(env!("CARGO_TARGET_TMPDIR")).join("failing.svg");
    for (probe, told) in [
        (&["false"][..], "false did not end well: exit status: 1"),
        (&["true"], "probe wrote 0 bytes where 178 were due"),
        (&["/no/such/program"], "/no/such/program: No such file"),
    ] {
        let mut arguments = vec!["timeline", state.path(), journal.path(), "--svg"];
        arguments.extend([svg.to_str().expect("a plain path"), "--"]);
        arguments.extend(probe);
        let said = failed(scribe(&arguments, b""), 1);
        assert!(said.contains(told), "{said}");
        assert!(!svg.exists());
    }
}

#[test]
fn what_cannot_be_drawn_is_told() {
    let (state, journal) = inputs("undrawn", &format!("{ONE}\n").repeat(RECORD_LIMIT + 1));
    let draw = |state: &str, journal: &str, svg: &str| {
        scribe(
            &["timeline", state, journal, "--svg", svg, "--", "false"],
            b"",
        )
    };
    let said = failed(draw(state.path(), journal.path(), "/dev/null"), 1);
    assert!(
        said.contains("1025 records, over 1024, are refused with 7"),
        "{said}"
    );
    let said = failed(draw(journal.path(), journal.path(), "/dev/null"), 1);
    assert!(said.contains("bytes, not 128"), "{said}");
    let said = failed(draw(state.path(), state.path(), "/dev/null"), 1);
    assert!(said.contains("the journal has 128 bytes"), "{said}");
    let said = failed(draw(state.path(), "/dev/null", "/no/such/folder/x.svg"), 1);
    assert!(
        said.contains("/no/such/folder/x.svg: No such file"),
        "{said}"
    );
}

#[test]
fn a_timeline_that_makes_no_sense_is_bad_usage() {
    for arguments in [
        &["timeline"][..],
        &["timeline", "a", "b"],
        &["timeline", "a", "b", "--"],
        &["timeline", "a", "--", "c"],
        &["timeline", "a", "b", "--svg", "--", "c"],
    ] {
        let said = failed(scribe(arguments, b""), 2);
        assert!(said.contains("--help"), "{said}");
    }
}
