//! The programs under test: where they are, how they run on this machine, and what they wrote.

use std::env;
use std::ffi::OsString;
use std::fs::File;
use std::io::{self, Read, Write};
use std::path::{Path, PathBuf};
use std::process::{Child, Command, ExitStatus, Stdio};
use std::sync::mpsc::{self, Receiver};
use std::thread;
use std::time::{Duration, Instant};

use crate::difference::Output;

/// A program that has not ended by then never ends.
const PATIENCE: Duration = Duration::from_secs(60);

/// Short beside the time that a program takes.
const BETWEEN_LOOKS: Duration = Duration::from_millis(1);

/// Machine numbers of an ELF header.
const X86_64: u16 = 62;
const AARCH64: u16 = 183;

/// A command line that runs a program, and what the program is called.
#[derive(Clone, Debug, PartialEq, Eq)]
pub struct Program {
    name: String,
    command: Vec<OsString>,
}

/// What a run of a program left.
#[derive(Debug)]
pub struct Ran {
    pub by: String,
    pub output: Vec<u8>,
    pub errors: String,
    pub status: ExitStatus,
}

impl Ran {
    /// The bytes that the program wrote.
    pub fn by_program(&self) -> Output<'_> {
        Output {
            by: &self.by,
            bytes: &self.output,
        }
    }

    /// The difference that was found on a case, with how the program ended. One that did not end
    /// well differs whatever it wrote.
    pub(crate) fn with_its_end(&self, seed: u64, difference: Option<String>) -> Option<String> {
        if difference.is_none() && self.status.success() {
            return None;
        }
        let head = || format!("case {seed:#018X} ended badly:\n");
        let (by, status, errors) = (&self.by, self.status, self.errors.trim());
        Some(difference.unwrap_or_else(head) + &format!("  {by}: {status}. {errors}\n"))
    }
}

impl Program {
    /// `probe`, from the environment variable PROBE or else from where `rt` leaves it.
    pub fn probe() -> Result<Program, String> {
        Ok(Program {
            name: "probe".to_string(),
            command: Program::found("PROBE", "crates/probe/out/probe")?,
        })
    }

    /// The C program with an archive linked in: the one that BENCH names, or else one for each
    /// machine that there is an archive for. It takes a journal in one of three ways: `run`,
    /// `access`, or `lend` with the length of the buffer.
    pub fn benches() -> Result<Vec<Program>, String> {
        if env::var_os("BENCH").is_some() {
            return Ok(vec![Program::bench("bench", "")?]);
        }
        let mut benches = vec![Program::bench(
            "bench for x86-64",
            "target/link/x86_64/bench",
        )?];
        let arm = "target/link/aarch64/bench";
        if env::consts::ARCH == "aarch64" || repository().join(arm).exists() {
            benches.push(Program::bench("bench for Arm", arm)?);
        } else {
            println!("{arm} cannot run here and was not linked, so it is not compared");
        }
        Ok(benches)
    }

    fn bench(name: &str, place: &str) -> Result<Program, String> {
        Ok(Program {
            name: name.to_string(),
            command: Program::found("BENCH", place)?,
        })
    }

    pub fn name(&self) -> &str {
        &self.name
    }

    /// The program with one more argument.
    pub fn with(&self, argument: &str) -> Program {
        Program {
            name: format!("{} {argument}", self.name),
            command: [&self.command[..], &[argument.into()]].concat(),
        }
    }

    /// The command line for the program that an environment variable names, or else for the one
    /// in its place in the repository.
    fn found(variable: &str, place: &str) -> Result<Vec<OsString>, String> {
        let path = match env::var_os(variable) {
            Some(path) => PathBuf::from(path),
            None => repository().join(place),
        };
        let path = std::path::absolute(&path).unwrap_or(path);
        let machine = machine_of(&path).map_err(|error| {
            format!(
                "no program to compare with: {}: {error}. Build it, or name it in {variable}.",
                path.display()
            )
        })?;
        Program::on_this_machine(&path, machine, env::consts::ARCH)
    }

    /// The one place in Rust that decides how a program runs: as it is on a machine of its own
    /// kind, and an Arm program on an x86-64 machine under that machine's emulator. The kit has
    /// none for the other way round, and runs on x86-64 alone.
    fn on_this_machine(path: &Path, machine: u16, here: &str) -> Result<Vec<OsString>, String> {
        match (machine, here) {
            (X86_64, "x86_64") | (AARCH64, "aarch64") => Ok(vec![path.into()]),
            (AARCH64, "x86_64") => Ok(vec!["qemu-aarch64".into(), path.into()]),
            _ => Err(format!(
                "{} is for ELF machine {machine}; this machine is {here} and has no emulator for it",
                path.display()
            )),
        }
    }

    /// Gives the program its input and waits for its output and its end.
    pub fn run(&self, input: &[u8]) -> Result<Ran, String> {
        self.run_within(PATIENCE, input)
    }

    fn run_within(&self, patience: Duration, input: &[u8]) -> Result<Ran, String> {
        let said = |error: io::Error| format!("{:?}: {error}", self.command);
        let limit = Instant::now() + patience;
        let mut child = Command::new(&self.command[0])
            .args(&self.command[1..])
            .stdin(Stdio::piped())
            .stdout(Stdio::piped())
            .stderr(Stdio::piped())
            .spawn()
            .map_err(said)?;
        match converse(&mut child, input, limit) {
            Ok((output, errors, status)) => Ok(Ran {
                by: self.name.clone(),
                output,
                errors: String::from_utf8_lossy(&errors).into_owned(),
                status,
            }),
            Err(error) => {
                let killed = child.kill().and_then(|()| child.wait());
                Err(format!("{}; killed: {killed:?}", said(error)))
            }
        }
    }
}

/// Standard output, standard error and the status, if all three are there by the limit. Each pipe
/// has a thread of its own, as any of them may fill up while the program is busy with another.
fn converse(
    child: &mut Child,
    input: &[u8],
    limit: Instant,
) -> io::Result<(Vec<u8>, Vec<u8>, ExitStatus)> {
    let pipes = (child.stdin.take(), child.stdout.take(), child.stderr.take());
    let (Some(stdin), Some(stdout), Some(stderr)) = pipes else {
        return Err(io::Error::other("the program's pipes are missing"));
    };
    feed(stdin, input.to_vec());
    let (output, errors) = (drain(stdout), drain(stderr));
    let output = drained_by(limit, &output)?;
    let errors = drained_by(limit, &errors)?;
    Ok((output, errors, ended_by(limit, child)?))
}

/// A program may end before it has taken all its input, so a failing write is no failure.
fn feed(mut pipe: impl Write + Send + 'static, input: Vec<u8>) {
    thread::spawn(move || pipe.write_all(&input));
}

/// Reads a pipe to its end. The thread is never joined, since a process that the program started
/// may hold the pipe open after the program itself was killed.
fn drain(mut pipe: impl Read + Send + 'static) -> Receiver<io::Result<Vec<u8>>> {
    let (done, told) = mpsc::channel();
    thread::spawn(move || {
        let mut bytes = Vec::new();
        let read = pipe.read_to_end(&mut bytes).map(|_| bytes);
        done.send(read)
    });
    told
}

fn drained_by(limit: Instant, told: &Receiver<io::Result<Vec<u8>>>) -> io::Result<Vec<u8>> {
    let left = limit.saturating_duration_since(Instant::now());
    told.recv_timeout(left).unwrap_or_else(|_| Err(too_late()))
}

/// Looks again and again, since the standard library has no wait with a limit. It is asked once
/// the pipes have ended, when nearly every program is at its end too.
fn ended_by(limit: Instant, child: &mut Child) -> io::Result<ExitStatus> {
    loop {
        match child.try_wait()? {
            Some(status) => return Ok(status),
            None if Instant::now() >= limit => return Err(too_late()),
            None => thread::sleep(BETWEEN_LOOKS),
        }
    }
}

fn too_late() -> io::Error {
    io::Error::new(io::ErrorKind::TimedOut, "did not end by itself in time")
}

/// The folder that holds the workspace of this package.
fn repository() -> &'static Path {
    let package = Path::new(env!("CARGO_MANIFEST_DIR"));
    package.ancestors().nth(2).unwrap_or(package)
}

/// The machine number of an ELF program.
fn machine_of(path: &Path) -> io::Result<u16> {
    let mut header = [0; 20];
    File::open(path)?.read_exact(&mut header)?;
    if header.starts_with(b"\x7FELF") {
        Ok(u16::from_le_bytes([header[18], header[19]]))
    } else {
        Err(io::Error::other("not an ELF program"))
    }
}

#[cfg(test)]
mod tests {
    use super::*;

    const A_MOMENT: Duration = Duration::from_millis(200);

    fn shell(script: &str) -> Program {
        Program {
            name: "sh".to_string(),
            command: ["/bin/sh", "-c", script].map(OsString::from).to_vec(),
        }
    }

    #[test]
    fn a_program_may_write_much_on_both_pipes_and_take_no_input() {
        let much = "head -c 1000000 /dev/zero";
        let program = shell(&format!("{much} >&2; {much}; {much} >&2; exit 3"));
        let ran = program.run(&[7; 1_000_000]).expect("it ends by itself");
        assert_eq!(
            (ran.errors.len(), ran.output.len(), ran.status.code()),
            (2_000_000, 1_000_000, Some(3))
        );
    }

    #[test]
    fn a_program_may_take_a_while_to_end_after_its_output() {
        let program = shell("cat; exec >&- 2>&-; sleep 0.1; exit 3");
        let ran = program.run(b"text").expect("it ends by itself");
        assert_eq!(
            (ran.output.as_slice(), ran.status.code()),
            (&b"text"[..], Some(3))
        );
    }

    #[test]
    fn a_program_that_does_not_end_is_ended_whatever_it_closed() {
        for script in [
            "exec sleep 20",
            "exec >&-; exec sleep 20",
            "exec >&- 2>&-; exec sleep 20",
            "sleep 20; echo a process of its own holds the pipes",
        ] {
            let begun = Instant::now();
            let error = shell(script).run_within(A_MOMENT, b"").expect_err(script);
            assert!(error.contains("did not end by itself"), "{script}: {error}");
            assert!(error.contains("killed: Ok"), "{script}: {error}");
            assert!(begun.elapsed() < Duration::from_secs(10), "{script}");
        }
    }

    #[test]
    fn a_program_runs_as_it_is_on_its_own_machine() {
        let path = Path::new("/some/probe");
        for (machine, here) in [(X86_64, "x86_64"), (AARCH64, "aarch64")] {
            let command = Program::on_this_machine(path, machine, here);
            assert_eq!(command, Ok(vec![OsString::from(path)]));
        }
    }

    #[test]
    fn an_arm_program_runs_under_an_emulator_elsewhere() {
        let path = Path::new("/some/bench");
        let command = Program::on_this_machine(path, AARCH64, "x86_64");
        assert_eq!(command, Ok(vec!["qemu-aarch64".into(), path.into()]));
    }

    #[test]
    fn a_machine_that_can_do_neither_is_named() {
        for here in ["riscv64", "aarch64"] {
            let error = Program::on_this_machine(Path::new("/some/probe"), X86_64, here);
            assert!(error.is_err_and(|error| error.contains(here)));
        }
    }

    #[test]
    fn a_missing_program_is_named_with_its_variable() {
        let error = Program::found("NO_SUCH_VARIABLE", "no/such/program");
        assert!(error.is_err_and(|error| {
            error.contains("no/such/program") && error.contains("name it in NO_SUCH_VARIABLE")
        }));
    }

    #[test]
    fn a_file_that_is_no_program_is_refused() {
        let this = Path::new(env!("CARGO_MANIFEST_DIR")).join("Cargo.toml");
        let error = machine_of(&this).map_err(|error| error.to_string());
        assert_eq!(error, Err("not an ELF program".to_string()));
    }
}
