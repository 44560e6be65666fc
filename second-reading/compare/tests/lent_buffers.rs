//! The lent buffer, of any length: a C program with an archive linked in lends it, and its number,
//! every one of its bytes and the state have to be the second reading's. A fixed seed, a fresh
//! seed, and every slip of the buffer.

use std::process::ExitCode;
use std::time::Instant;

use compare::{catch_each, ended, fresh_seed, Loans, Program, KINDS};

const FIXED_SEED: u64 = 0xB0FF_E2D0_1E4D_5C00;
const CASES: u64 = 2 * KINDS;

fn main() -> ExitCode {
    ended(compare_all())
}

fn compare_all() -> Result<(), String> {
    let fresh = fresh_seed()?;
    for bench in Program::benches()? {
        let bench = bench.with("lend");
        let fixed = stretch(&bench, "fixed", FIXED_SEED)?;
        stretch(&bench, "fresh", fresh)?;
        catch_each(&slips::of_the_buffer(), |slip| fixed.catches(slip))?;
    }
    Ok(())
}

fn stretch(bench: &Program, name: &str, seed: u64) -> Result<Loans, String> {
    println!("{}, {name} seed {seed:#018X}: {CASES} cases", bench.name());
    let begun = Instant::now();
    let loans = Loans::run(bench, seed, CASES)?;
    let met = loans.compare()?;
    let (count, seconds) = (loans.count(), begun.elapsed().as_secs_f32());
    println!("agreed on {count} lent buffers in {seconds:.1} s\n");
    println!("what decided at each length\n{}", met.table());
    match met.missing().as_slice() {
        [] => Ok(loans),
        missing => Err(format!("never met, seed {seed:#018X}: {missing:?}")),
    }
}
