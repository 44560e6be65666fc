//! What the command reads and writes, and what may go wrong there.

use std::borrow::Cow;
use std::ffi::OsStr;
use std::fs;
use std::io::{self, Read, Write};
use std::os::unix::ffi::OsStrExt;

use scribe::{Entry, Fault, State};

/// What was given on the command line. A file's name may be any bytes, and need not be a text.
pub(crate) type Argument<'a> = &'a [u8];

/// What ends the program without output.
pub(crate) enum Failure {
    Usage(String),
    Input(String),
}

impl Failure {
    /// Bad usage that has no words of its own.
    pub(crate) fn no_sense_in(command: Argument, options: &[Argument]) -> Failure {
        let asked = [&[command], options].concat().join(&b' ');
        let asked = scribe::quoted(&String::from_utf8_lossy(&asked));
        Failure::Usage(format!("cannot make sense of {asked}"))
    }
}

/// Says it on standard error. What is not taken there stops nothing, and changes no status.
pub(crate) fn say(message: &str) {
    let _ = writeln!(io::stderr(), "{message}");
}

pub(crate) fn os(argument: Argument<'_>) -> &OsStr {
    OsStr::from_bytes(argument)
}

/// The bytes of a file; `-` is standard input.
pub(crate) fn read(file: Argument) -> Result<Vec<u8>, Failure> {
    let mut bytes = Vec::new();
    let result = if file == b"-" {
        io::stdin().read_to_end(&mut bytes).map(|_| bytes)
    } else {
        fs::read(os(file))
    };
    let file = String::from_utf8_lossy(file);
    result.map_err(|error| Failure::Input(format!("scribe: {file}: {error}")))
}

pub(crate) fn read_text(file: Argument) -> Result<String, Failure> {
    String::from_utf8(read(file)?)
        .map_err(|_| Failure::Input(format!("{}: the text is not UTF-8", name_of(file))))
}

/// The records of a file's text.
pub(crate) fn entries<'a>(file: Argument, text: &'a str) -> Result<Vec<Entry<'a>>, Failure> {
    scribe::entries(text).map_err(|fault| fault_in(file, &fault))
}

/// The state of a file's text.
pub(crate) fn state(file: Argument, text: &str) -> Result<State, Failure> {
    scribe::state_of(text).map_err(|fault| fault_in(file, &fault))
}

fn fault_in(file: Argument, fault: &Fault) -> Failure {
    Failure::Input(format!("{}:{fault}", name_of(file)))
}

/// What a fault in the text of a file is told with.
fn name_of(file: Argument<'_>) -> Cow<'_, str> {
    match file {
        b"-" => Cow::Borrowed("<stdin>"),
        _ => String::from_utf8_lossy(file),
    }
}

pub(crate) fn write_out(output: &[u8]) -> Result<(), Failure> {
    let mut stdout = io::stdout().lock();
    stdout
        .write_all(output)
        .and_then(|()| stdout.flush())
        .map_err(|error| Failure::Input(format!("scribe: standard output: {error}")))
}
