//! `scribe`: packs journals and states from text, and shows journals, answers and states in words.

mod files;
mod show_files;
mod timeline_files;

use std::env;
use std::ffi::OsString;
use std::os::unix::ffi::OsStrExt;
use std::process::ExitCode;

use scribe::RECORD_LIMIT;

use files::{entries, read, read_text, say, state, write_out, Argument, Failure};
use show_files::{end, show_files};
use timeline_files::timeline;

fn main() -> ExitCode {
    let arguments: Vec<OsString> = env::args_os().skip(1).collect();
    let arguments: Vec<Argument> = arguments.iter().map(|given| given.as_bytes()).collect();
    match output_of(&arguments).and_then(|output| write_out(&output)) {
        Ok(()) => ExitCode::SUCCESS,
        Err(Failure::Input(message)) => {
            say(&message);
            ExitCode::from(1)
        }
        Err(Failure::Usage(message)) => {
            say(&format!("scribe: {message}; see scribe --help"));
            ExitCode::from(2)
        }
    }
}

fn output_of(arguments: &[Argument]) -> Result<Vec<u8>, Failure> {
    match arguments {
        [b"--help" | b"-h"] => Ok(include_bytes!("help.txt").to_vec()),
        [b"pack"] => pack(b"-"),
        [b"pack", file] if !file.starts_with(b"--") => pack(file),
        [b"pack-state"] => pack_state(b"-"),
        [b"pack-state", file] if !file.starts_with(b"--") => pack_state(file),
        [b"kind"] => kind(b"-"),
        [b"kind", file] if !file.starts_with(b"--") => kind(file),
        [b"end", state, journal, written] => end(state, journal, written),
        [b"timeline", options @ ..] => timeline(options),
        [b"show"] => Err(Failure::Usage("nothing to show".to_string())),
        [b"show", options @ ..] => show_files(options),
        [] => Err(Failure::Usage("a command is missing".to_string())),
        [command, options @ ..] => Err(Failure::no_sense_in(command, options)),
    }
}

fn pack(file: Argument) -> Result<Vec<u8>, Failure> {
    let text = read_text(file)?;
    let entries = entries(file, &text)?;
    let records = entries.len();
    if records > RECORD_LIMIT {
        say(&format!(
            "scribe: note: {records} records; a run refuses over {RECORD_LIMIT} with 7"
        ));
    }
    Ok(scribe::journal_of(&entries))
}

fn pack_state(file: Argument) -> Result<Vec<u8>, Failure> {
    let text = read_text(file)?;
    Ok(state(file, &text)?.to_image().to_vec())
}

fn kind(file: Argument) -> Result<Vec<u8>, Failure> {
    let kind = if scribe::is_text(&read(file)?) {
        "text\n"
    } else {
        "bytes\n"
    };
    Ok(kind.into())
}
