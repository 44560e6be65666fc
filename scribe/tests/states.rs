//! The command `scribe` as people use it: states.

mod common;

use common::{done, failed, scribe, Scratch};
use scribe::{Answer, Record, State, IMAGE_BYTES};

fn shown(image: &[u8]) -> String {
    let text = done(scribe(&["show", "--state", "-"], image));
    String::from_utf8(text).expect("text")
}

#[test]
fn a_state_packed_and_shown_is_the_same_text() {
    let text = "FEATURES = VHE 1, SEL2 0, ECV 1\n\
                SCR_EL3 = NS 1, EEL2 0, ECVEn 1\n\
                HCR_EL2 = E2H 1, TGE 0\n\
                CNTKCTL = 0 # EL0PCTEN 0, EL0VCTEN 0, EL0VTEN 0, EL0PTEN 0\n\
                CNTHCTL = 0x1C00 # EL0PCTEN 0, EL0VCTEN 0, EL0VTEN 0, EL0PTEN 0, EL1PCTEN 1,\n\
                \x20                # EL1PTEN 1, ECV 1, EL1TVT 0, EL1TVCT 0\n\
                CNTVOFF = 0xFFFFFFFFFFFFFFFB # -5\n\
                CNTPOFF = 999999\n\
                CNTP = CVAL 0x12345678, ENABLE 0, IMASK 1\n\
                CNTV = CVAL 1500, ENABLE 1, IMASK 0\n\
                CNTHP = CVAL 0, ENABLE 0, IMASK 0\n\
                CNTHV = CVAL 0x8000000000000000, ENABLE 1, IMASK 1 # CVAL -9223372036854775808\n\
                CNTHPS = CVAL 0, ENABLE 0, IMASK 0\n\
                CNTHVS = CVAL 7, ENABLE 0, IMASK 0\n";
    let image = done(scribe(&["pack-state"], text.as_bytes()));
    assert_eq!(image.len(), IMAGE_BYTES);
    assert_eq!(shown(&image), text);
}

#[test]
fn a_journal_and_a_state_are_two_paragraphs() {
    let image = Scratch::new("two.image", &State::bench().to_image());
    let journal = scribe::pack("WORD 0 EL0 @ 1").expect("a record");
    let both = |journal: &[u8]| {
        let asked = ["show", "--journal", "-", "--state", image.path()];
        String::from_utf8(done(scribe(&asked, journal))).expect("text")
    };
    let state = shown(&State::bench().to_image());
    assert_eq!(
        both(&journal),
        format!("WORD 0x00000000 EL0 = 0 @ 1\n\n{state}")
    );
    assert_eq!(both(b""), state);
}

#[test]
fn a_text_may_say_little_and_stand_in_a_file() {
    let file = Scratch::new("little.state", b"CNTVOFF = 5\n");
    let image = done(scribe(&["pack-state", file.path()], b""));
    let state = State {
        cntvoff: 5,
        ..State::bench()
    };
    assert_eq!(image, state.to_image());
    let image = done(scribe(&["pack-state", "-"], b"ALL ZERO"));
    assert_eq!(image, State::default().to_image());
}

#[test]
fn a_bad_line_is_told_with_its_place_and_nothing_is_written() {
    let file = Scratch::new("bad.state", b"# a title\nCNTVOF = 5\n");
    let said = failed(scribe(&["pack-state", file.path()], b""), 1);
    let told = "bad.state:2:1: expected a register of a state, found `CNTVOF`; nearest: CNTVOFF\n";
    assert!(said.ends_with(told), "{said}");
    let said = failed(scribe(&["pack-state"], b"CNTV = ON"), 1);
    assert!(said.starts_with("<stdin>:1:8: expected a field of CNTV"));
    let said = failed(scribe(&["pack-state"], b"\xFF"), 1);
    assert!(said.contains("UTF-8"), "{said}");
}

#[test]
fn what_is_no_image_is_not_shown() {
    let said = failed(scribe(&["show", "--state", "-"], &[0; 127]), 1);
    assert!(said.contains("127 bytes, not 128"), "{said}");
    let said = failed(scribe(&["show", "--state", "-"], &[0; 128]), 1);
    assert!(said.contains("byte 127 is 0x00"), "{said}");
    let mut image = State::bench().to_image();
    image[100] = 1;
    let said = failed(scribe(&["show", "--state", "-"], &image), 1);
    assert!(said.contains("a bit between the last timer"), "{said}");
}

/// What `probe` writes on one record, the final state and the lines being those.
fn written(state: &State, lines: [u8; 2]) -> Vec<u8> {
    let mut written = Answer::default().pack().to_vec();
    written.extend(state.to_image());
    written.extend(lines);
    written
}

#[test]
fn the_end_of_a_run_is_told_by_what_differs_and_the_lines() {
    let first = Scratch::new("end.image", &State::bench().to_image());
    let record = Record {
        count: 1500,
        ..Record::default()
    };
    let journal = Scratch::new("end.journal", &record.pack());
    let end = |written: &[u8]| scribe(&["end", first.path(), journal.path(), "-"], written);
    let mut last = State::bench();
    last.cntkctl = 0x301;
    last.timers[1].cval = u64::MAX;
    last.timers[1].enable = true;
    let told = done(end(&written(&last, [0, 2])));
    assert_eq!(
        String::from_utf8_lossy(&told),
        "the final state, where it differs from the first:\n  \
         CNTKCTL: 0x303 -> 0x301\n  \
         CNTV CVAL: 0 -> 0xFFFFFFFFFFFFFFFF\n  \
         CNTV ENABLE: 0 -> 1\n\
         lines at count 1500: up: CNTV\n"
    );
    let told = done(end(&written(&State::bench(), [0, 0])));
    assert_eq!(
        String::from_utf8_lossy(&told),
        "the final state is the first\nlines at count 1500: none is up\n"
    );
    let said = failed(end(b"short"), 1);
    assert_eq!(said, "scribe: probe wrote 5 bytes where 154 were due\n");
}
