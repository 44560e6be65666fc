//! Deliberate misreadings of the paper, to see whether a comparison notices each.
//!
//! A slip is a [`Paper`] with another sentence in the place of one, or around it: what the paper
//! says there is had from [`AsWritten`](reading::AsWritten). All else stays as it is written.

use std::fmt;

use reading::Paper;

mod buffer;
mod control_gates;
mod control_values;
mod fields;
mod impostors;
mod journal;
mod left_out;
mod machine;
mod moved;
mod redirection;
mod seen;
mod stale;
mod values;

/// A misreading of the paper.
pub struct Slip {
    words: String,
    paper: Box<dyn Paper>,
}

impl Slip {
    fn new(words: &str, paper: impl Paper + 'static) -> Slip {
        Slip {
            words: words.to_string(),
            paper: Box::new(paper),
        }
    }

    pub fn paper(&self) -> &dyn Paper {
        &*self.paper
    }
}

impl fmt::Display for Slip {
    fn fmt(&self, f: &mut fmt::Formatter<'_>) -> fmt::Result {
        f.write_str(&self.words)
    }
}

/// Each that a journal given to a program can show.
pub fn of_journals() -> Vec<Slip> {
    let each = [
        seen::slips(),
        machine::slips(),
        values::slips(),
        journal::slips(),
        impostors::slips(),
        left_out::slips(),
        moved::slips(),
        control_gates::slips(),
        redirection::slips(),
        control_values::slips(),
        fields::slips(),
        stale::slips(),
    ];
    each.into_iter().flatten().collect()
}

/// Each of the lent buffer, which only a loan of another length than the journal's can show.
pub fn of_the_buffer() -> Vec<Slip> {
    buffer::slips()
}
