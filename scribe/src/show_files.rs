//! `scribe show` and `scribe end`: the files that they are asked for, in words.

use scribe::show::{self, Unshowable};

use crate::files::{entries, read, read_text, Argument, Failure};

#[derive(Default)]
struct Asked<'a> {
    journal: Option<Argument<'a>>,
    text: Option<Argument<'a>>,
    answers: Option<Argument<'a>>,
    state: Option<Argument<'a>>,
}

impl<'a> Asked<'a> {
    fn by(options: &[Argument<'a>]) -> Result<Asked<'a>, Failure> {
        let mut asked = Asked::default();
        for option in options.chunks(2) {
            let (place, file) = match option {
                [b"--journal", file] => (&mut asked.journal, file),
                [b"--text", file] => (&mut asked.text, file),
                [b"--answers", file] => (&mut asked.answers, file),
                [b"--state", file] => (&mut asked.state, file),
                other => return Err(Failure::no_sense_in(b"show", other)),
            };
            if place.replace(*file).is_some() {
                let option = String::from_utf8_lossy(option[0]);
                return Err(Failure::Usage(format!("`{option}` stands twice")));
            }
        }
        if asked.shares_standard_input() {
            let message = "standard input is one FILE, and no other".to_string();
            return Err(Failure::Usage(message));
        }
        Ok(asked)
    }

    /// What one file has read from there is gone for another.
    fn shares_standard_input(&self) -> bool {
        let files = [self.journal, self.text, self.answers, self.state];
        let from_there = files.iter().filter(|file| **file == Some(b"-".as_slice()));
        from_there.count() > 1
    }
}

pub(crate) fn show_files(options: &[Argument]) -> Result<Vec<u8>, Failure> {
    let asked = Asked::by(options)?;
    let records = match (asked.journal, asked.text, asked.answers) {
        (Some(_), Some(_), _) => {
            let message = "the journal stands twice, in bytes and as text".to_string();
            return Err(Failure::Usage(message));
        }
        (Some(journal), None, answers) => show_journal(&read(journal)?, answers)?,
        (None, Some(text), answers) => show_text(text, answers)?,
        (None, None, Some(answers)) => show::answers(&read(answers)?).map_err(unshowable)?,
        (None, None, None) => String::new(),
    };
    let state = match asked.state {
        Some(state) => show::state(&read(state)?).map_err(unshowable)?,
        None => String::new(),
    };
    let both = !records.is_empty() && !state.is_empty();
    let between = if both { "\n" } else { "" };
    Ok([records, state].join(between).into_bytes())
}

fn show_journal(journal: &[u8], answers: Option<Argument>) -> Result<String, Failure> {
    match answers {
        Some(answers) => show::side_by_side(journal, &read(answers)?),
        None => show::journal(journal),
    }
    .map_err(unshowable)
}

fn show_text(file: Argument, answers: Option<Argument>) -> Result<String, Failure> {
    let text = read_text(file)?;
    let entries = entries(file, &text)?;
    let shown = show_journal(&scribe::journal_of(&entries), answers)?;
    Ok(scribe::with_comments(&shown, &entries))
}

/// `scribe end`: how a run on a state and a journal ended, by what `probe` wrote.
pub(crate) fn end(
    state: Argument,
    journal: Argument,
    written: Argument,
) -> Result<Vec<u8>, Failure> {
    let ended = show::end(&read(state)?, &read(journal)?, &read(written)?);
    ended.map(String::into_bytes).map_err(unshowable)
}

fn unshowable(error: Unshowable) -> Failure {
    Failure::Input(format!("scribe: {error}"))
}
