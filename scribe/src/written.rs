//! What `probe` writes on a state and a journal.

use crate::answer::Answer;
use crate::image::IMAGE_BYTES;
use crate::record::RECORD_BYTES;
use crate::show::{state_in, Unshowable};
use crate::state::{State, TIMERS};

/// Whether each timer's line is up; of a state that cannot be, nothing is said.
pub type Lines = Option<[bool; TIMERS.len()]>;

/// The number of the lines question and the lines.
const LINES_BYTES: usize = 2;

#[derive(Clone, Debug, PartialEq, Eq)]
pub(crate) struct Written {
    pub(crate) answers: Vec<Answer>,
    pub(crate) state: State,
    pub(crate) lines: Lines,
}

impl Written {
    /// What was written on a journal of so many records.
    pub(crate) fn of(bytes: &[u8], records: usize) -> Result<Written, Unshowable> {
        let due = records * RECORD_BYTES + IMAGE_BYTES + LINES_BYTES;
        if bytes.len() != due {
            let found = bytes.len();
            return Err(Unshowable::Written { found, due });
        }
        let (answers, rest) = bytes.split_at(records * RECORD_BYTES);
        let (image, lines) = rest.split_at(IMAGE_BYTES);
        Ok(Written {
            answers: answers.as_chunks().0.iter().map(Answer::unpack).collect(),
            state: state_in(image)?,
            lines: lines_of(lines),
        })
    }
}

fn lines_of(bytes: &[u8]) -> Lines {
    let up = |timer| bytes[1] >> timer & 1 == 1;
    (bytes[0] == 0).then(|| std::array::from_fn(up))
}

#[cfg(test)]
mod tests {
    use super::*;

    #[test]
    fn the_parts_stand_where_the_format_says() {
        let answer = Answer {
            value: 600,
            ..Answer::default()
        };
        let mut bytes = answer.pack().to_vec();
        bytes.extend(State::bench().to_image());
        bytes.extend([0, 0b10_0010]);
        let up = [false, true, false, false, false, true];
        let written = Written {
            answers: vec![answer],
            state: State::bench(),
            lines: Some(up),
        };
        assert_eq!(Written::of(&bytes, 1), Ok(written));
        bytes[RECORD_BYTES + IMAGE_BYTES] = 5;
        let of_impossible = Written::of(&bytes, 1).expect("a state that cannot be");
        assert_eq!(of_impossible.lines, None);
        for (records, due) in [(2, 178), (0, 130)] {
            let found = bytes.len();
            let another_length = Err(Unshowable::Written { found, due });
            assert_eq!(Written::of(&bytes, records), another_length);
        }
    }
}
