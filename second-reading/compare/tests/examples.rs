//! The example journals: each can be packed, says what it shows, and gives what it says.

use std::fs;
use std::path::{Path, PathBuf};

use reading::{Reading, State};
use scribe::{show, with_comments};

fn folder() -> PathBuf {
    Path::new(env!("CARGO_MANIFEST_DIR")).join("../../examples")
}

fn file(name: &str) -> String {
    fs::read_to_string(folder().join(name)).expect(name)
}

/// The records of a text side by side with their answers from the start state.
fn side_by_side(text: &str) -> String {
    let journal = scribe::pack(text).unwrap_or_else(|fault| panic!("{fault}"));
    let mut answers = vec![0; journal.len()];
    assert_eq!(Reading::new(State::bench()).run(&journal, &mut answers), 0);
    show::side_by_side(&journal, &answers).expect("whole records")
}

fn answers(name: &str) -> Vec<String> {
    let shown = side_by_side(&file(name));
    let answers = shown.lines().filter_map(|line| line.split(" -> ").nth(1));
    answers.map(str::to_string).collect()
}

#[test]
fn every_example_begins_with_a_line_on_what_it_shows() {
    let mut seen = 0;
    for entry in fs::read_dir(folder()).expect("the folder of examples") {
        let path = entry.expect("an example").path();
        if path.extension().is_none_or(|extension| extension != "txt") {
            continue;
        }
        let text = fs::read_to_string(&path).expect("text");
        assert!(text.starts_with("# Shows "), "{}", path.display());
        let journal = scribe::pack(&text);
        assert!(journal.is_ok_and(|journal| !journal.is_empty()));
        seen += 1;
    }
    assert!(seen >= 3);
}

#[test]
fn the_readings_give_what_the_bench_gave() {
    let values: Vec<String> = answers("readings.txt")
        .into_iter()
        .filter(|answer| answer != "done")
        .collect();
    let undefined = "Undefined";
    assert_eq!(
        values,
        [
            "done 600",
            "trap to EL2, class 0x18",
            "done 599",
            "done 605",
            "done 600",
            "done 0, unknown: ISTATUS",
            "done 7 (ENABLE, IMASK, ISTATUS)",
            "done 7 (ENABLE, IMASK, ISTATUS)",
            "done 3 (ENABLE, IMASK)",
            undefined,
            "done 400",
            undefined,
            "done, all 64 bits unknown",
            "done 0xFFFFFFFFFFFFFF9C (-100)",
            "done 0xFFFFFFFFFFFFFE75 (-395)",
            "refused, 4: not MRS or MSR, or not in the name table",
            "trap to EL1, class 0x18",
        ]
    );
}

#[test]
fn what_has_answers_beside_it_gives_them() {
    for name in ["lease", "kernel"] {
        let text = file(&format!("{name}.txt"));
        let entries = scribe::entries(&text).expect("a text");
        let shown = with_comments(&side_by_side(&text), &entries);
        let foretold = file(&format!("{name}.answers"));
        assert_eq!(
            shown.lines().collect::<Vec<_>>(),
            foretold.lines().collect::<Vec<_>>()
        );
    }
}

#[test]
fn the_guest_gets_its_own_count_and_nothing_else() {
    let guest = answers("guest.txt");
    let (first, last) = (guest.first(), guest.last());
    assert_eq!(first.map(String::as_str), Some("done 600"));
    assert_eq!(last.map(String::as_str), Some("done 600"));
    let others = &guest[1..guest.len() - 1];
    assert!(others.iter().all(|answer| !answer.starts_with("done")));
}
