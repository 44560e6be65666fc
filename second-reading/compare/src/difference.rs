//! Differences between what was expected and what was written, in the words of scribe, which shows
//! the same bytes to whoever makes a case again.

use reading::{Reading, RECORD_BYTES};
use scribe::{words, Answer, Record, State, IMAGE_BYTES, TIMERS};

use crate::case::Case;

/// How many differing records are told of.
const TOLD: usize = 5;

/// Bytes written for a case, and the name of what wrote them.
#[derive(Clone, Copy, Debug)]
pub struct Output<'a> {
    pub by: &'a str,
    pub bytes: &'a [u8],
}

/// The end of an output: final state image, number and lines.
struct End<'a> {
    by: &'a str,
    image: &'a [u8; IMAGE_BYTES],
    lines: [u8; 2],
}

impl<'a> Output<'a> {
    /// What was written before the end, and the end.
    fn parts(self) -> Option<(Output<'a>, End<'a>)> {
        let by = self.by;
        let (rest, &lines) = self.bytes.split_last_chunk()?;
        let (bytes, image) = rest.split_last_chunk()?;
        Some((Output { by, bytes }, End { by, image, lines }))
    }
}

/// What differs, or nothing if the two outputs are the same bytes.
pub fn explain(case: &Case, expected: Output, found: Output) -> Option<String> {
    let head = format!("case {:#018X} ({:?})", case.seed, case.kind);
    explain_parts(&head, expected, found, |expected, found| {
        answers(case, expected, found)
    })
}

/// The same for any output that ends in a state and the lines, with words of its own for what
/// stands before them.
pub(crate) fn explain_parts(
    head: &str,
    expected: Output,
    found: Output,
    before_the_end: impl Fn(Output, Output) -> String,
) -> Option<String> {
    if expected.bytes == found.bytes {
        return None;
    }
    let told = match (expected.parts(), found.parts()) {
        (Some((wanted, our)), Some((written, their)))
            if wanted.bytes.len() == written.bytes.len() =>
        {
            before_the_end(wanted, written) + &states(&our, &their) + &lines(&our, &their)
        }
        _ => format!(
            "  {} wrote {} bytes where {} were expected\n",
            found.by,
            found.bytes.len(),
            expected.bytes.len()
        ),
    };
    Some(format!("{head} differs:\n{told}"))
}

fn answers(case: &Case, expected: Output, found: Output) -> String {
    let (records, _) = case.journal.as_chunks();
    let [wanted, written] = [expected, found].map(|output| output.bytes.as_chunks().0);
    let differing: Vec<usize> = (0..wanted.len())
        .filter(|&place| wanted[place] != written[place])
        .collect();
    let width = 1 + expected.by.len().max(found.by.len());
    let mut told = String::new();
    for &place in differing.iter().take(TOLD) {
        let record = Record::unpack(&records[place]);
        told += &format!("  record {place}: {}\n", words::record(&record));
        told += &controls_before(case, place);
        for (by, answers) in [(expected.by, wanted), (found.by, written)] {
            let answer = words::answer(&Answer::unpack(&answers[place]), record.word);
            told += &format!("    {:<width$} {answer}\n", format!("{by}:"));
        }
    }
    if differing.len() > TOLD {
        told += &format!("  and {} more records\n", differing.len() - TOLD);
    }
    told
}

/// What the control registers hold before a record, since earlier ones may have written them.
fn controls_before(case: &Case, place: usize) -> String {
    let earlier = &case.journal[..place * RECORD_BYTES];
    let mut reading = Reading::new(case.state);
    reading.run(earlier, &mut vec![0; earlier.len()]);
    let (cntkctl, cnthctl) = (reading.state.cntkctl, reading.state.cnthctl);
    format!("    with CNTKCTL_EL1 {cntkctl:#X}, CNTHCTL_EL2 {cnthctl:#X} by the second reading\n")
}

fn states(expected: &End, found: &End) -> String {
    if expected.image == found.image {
        return String::new();
    }
    let by = (expected.by, found.by);
    let states = [expected, found].map(|end| State::from_image(end.image));
    match states {
        [Ok(expected), Ok(found)] => fields(by, &expected, &found),
        [_, Err(error)] => format!("  final state: {} wrote no image, {error}\n", by.1),
        [Err(error), _] => format!("  final state: no image was expected, {error}\n"),
    }
}

fn fields(by: (&str, &str), expected: &State, found: &State) -> String {
    words::state(expected)
        .iter()
        .zip(words::state(found))
        .filter(|((_, expected), (_, found))| expected != found)
        .map(|((name, expected), (_, found))| {
            format!("  final {name}: {} {expected}; {} {found}\n", by.0, by.1)
        })
        .collect()
}

fn lines(expected: &End, found: &End) -> String {
    if expected.lines == found.lines {
        return String::new();
    }
    let [wants, has] = [expected, found].map(|end| raised(end.lines));
    format!("  lines: {} {wants}; {} {has}\n", expected.by, found.by)
}

/// The answer to the lines question.
fn raised([number, lines]: [u8; 2]) -> String {
    let up = (0..TIMERS.len()).filter(|timer| lines >> timer & 1 == 1);
    let up: Vec<&str> = up.map(|timer| TIMERS[timer]).collect();
    match up.as_slice() {
        [] => format!("number {number}, no line raised"),
        up => format!("number {number}, raised: {}", up.join(", ")),
    }
}

#[cfg(test)]
mod tests {
    use super::*;
    use crate::expected::expected;
    use reading::AsWritten;

    const ORDINARY: u64 = 7;

    fn by_probe(bytes: &[u8]) -> Output<'_> {
        Output { by: "probe", bytes }
    }

    fn with_byte_changed(place: impl Fn(usize) -> usize) -> String {
        let case = Case::of(ORDINARY);
        let expected = expected(&case, &AsWritten);
        let mut found = expected.output.clone();
        found[place(expected.output.len())] ^= 1;
        explain(&case, expected.by_reading(), by_probe(&found))
            .expect("a changed byte is a difference")
    }

    #[test]
    fn the_same_bytes_do_not_differ() {
        let case = Case::of(ORDINARY);
        let expected = expected(&case, &AsWritten);
        let found = by_probe(&expected.output);
        assert_eq!(explain(&case, expected.by_reading(), found), None);
    }

    #[test]
    fn a_differing_answer_is_told_with_its_record() {
        let told = with_byte_changed(|_| 3 * RECORD_BYTES + 15);
        let case = Case::of(ORDINARY);
        let record = Record::unpack(&case.journal.as_chunks().0[3]);
        assert!(told.contains("case 0x0000000000000007"));
        assert!(told.contains(&format!("record 3: {}\n", words::record(&record))));
        assert!(told.contains("\n    second reading: ") && told.contains("\n    probe:          "));
    }

    #[test]
    fn a_differing_answer_is_told_with_the_controls_that_earlier_records_wrote() {
        // MSR CNTKCTL_EL1, X0
        let text = "WORD 0xD518E100 EL1 = 1 @ 0\nEL0 MRS X0, CNTVCT_EL0 @ 1000\n";
        let mut case = Case::of(1);
        case.state = reading::State::bench();
        case.journal = scribe::pack(text).expect("a text");
        let expected = expected(&case, &AsWritten);
        let mut found = expected.output.clone();
        found[RECORD_BYTES] ^= 0x10;
        let told = explain(&case, expected.by_reading(), by_probe(&found)).expect("changed");
        let record = "record 1: EL0 MRS X0, CNTVCT_EL0 @ 1000";
        let held = "with CNTKCTL_EL1 0x1, CNTHCTL_EL2 0x0 by the second reading";
        let answer = "second reading: trap to EL1, class 0x18";
        assert!(
            told.contains(&format!("{record}\n    {held}\n    {answer}\n")),
            "{told}"
        );
    }

    #[test]
    fn a_differing_field_and_differing_lines_are_named() {
        let told = with_byte_changed(|length| length - 130 + 16);
        assert!(
            told.contains("final CNTVOFF_EL2: second reading "),
            "{told}"
        );
        assert!(with_byte_changed(|length| length - 1).contains("lines: second reading number"));
        assert!(with_byte_changed(|length| length - 3).contains("byte 127 is 0xA4"));
    }

    #[test]
    fn lines_are_named() {
        assert_eq!(raised([5, 0]), "number 5, no line raised");
        assert_eq!(raised([0, 0b10_0001]), "number 0, raised: CNTP, CNTHVS");
    }

    #[test]
    fn another_length_is_told() {
        let case = Case::of(ORDINARY);
        let expected = expected(&case, &AsWritten);
        let shorter = by_probe(&expected.output[..130]);
        let told = explain(&case, expected.by_reading(), shorter).expect("shorter");
        assert!(told.contains("probe wrote 130 bytes where 7330 were expected"));
    }
}
