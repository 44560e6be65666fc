//! `again`: makes one case again from its seed and compares it with `probe`.

use std::env;
use std::fs;
use std::path::Path;
use std::process::ExitCode;

use compare::{expected, parse_seed, Captured, Case, Program};
use reading::AsWritten;

const HELP: &str = "\
again: one case again

usage: again SEED [FOLDER]
    Makes the case of SEED (decimal or 0x), runs probe on it and tells how the
    two differ. With FOLDER, leaves there state.bin and journal.bin, input.bin
    (both of them, as probe reads it), expected.bin and found.bin.

exit: 0 no difference, 1 a difference or no program, 2 bad usage.
";

fn main() -> ExitCode {
    let arguments: Vec<String> = env::args().skip(1).collect();
    let (seed, folder) = match arguments.as_slice() {
        [help] if help == "--help" => {
            print!("{HELP}");
            return ExitCode::SUCCESS;
        }
        [seed] => (parse_seed(seed), None),
        [seed, folder] => (parse_seed(seed), Some(Path::new(folder))),
        _ => (Err("a seed is due, and at most a folder".to_string()), None),
    };
    match seed {
        Ok(seed) => told(again(seed, folder)),
        Err(error) => {
            eprintln!("again: {error}; see again --help");
            ExitCode::from(2)
        }
    }
}

fn told(difference: Result<Option<String>, String>) -> ExitCode {
    match difference {
        Ok(None) => {
            println!("no difference");
            ExitCode::SUCCESS
        }
        Ok(Some(difference)) => {
            print!("{difference}");
            ExitCode::FAILURE
        }
        Err(error) => {
            eprintln!("again: {error}");
            ExitCode::FAILURE
        }
    }
}

fn again(seed: u64, folder: Option<&Path>) -> Result<Option<String>, String> {
    let captured = Captured::of(&Program::probe()?, seed)?;
    let (case, ran) = (&captured.case, &captured.ran);
    let records = case.records().len();
    println!("case {seed:#018X} ({:?}), {records} records", case.kind);
    let expected = expected(case, &AsWritten);
    if let Some(folder) = folder {
        save(folder, case, &expected.output, &ran.output)
            .map_err(|error| format!("{}: {error}", folder.display()))?;
    }
    Ok(captured.difference(expected.by_reading()))
}

fn save(folder: &Path, case: &Case, expected: &[u8], found: &[u8]) -> std::io::Result<()> {
    fs::create_dir_all(folder)?;
    fs::write(folder.join("state.bin"), case.state.to_image())?;
    fs::write(folder.join("journal.bin"), &case.journal)?;
    fs::write(folder.join("input.bin"), case.input())?;
    fs::write(folder.join("expected.bin"), expected)?;
    fs::write(folder.join("found.bin"), found)
}
