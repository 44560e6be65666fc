//! The second reading against `probe`: a fixed seed, a fresh seed, and every slip that a journal
//! can show.

use std::process::ExitCode;
use std::time::Instant;

use compare::{catch_each, coverage_table, ended, fresh_seed, Campaign, Least, Program, KINDS};

const FIXED_SEED: u64 = 0x5EC0_4D12_EAD1_4600;
const CASES: u64 = 38 * KINDS;
const LEAST: Least = Least {
    states: 1_000,
    records: 300_000,
};

fn main() -> ExitCode {
    ended(compare_all())
}

fn compare_all() -> Result<(), String> {
    let probe = Program::probe()?;
    let fixed = stretch(&probe, "fixed", FIXED_SEED)?;
    stretch(&probe, "fresh", fresh_seed()?)?;
    catch_each(&slips::of_journals(), |slip| fixed.catches(slip))
}

fn stretch(probe: &Program, name: &str, seed: u64) -> Result<Campaign, String> {
    println!("{name} seed {seed:#018X}: {CASES} cases");
    let begun = Instant::now();
    let campaign = Campaign::run(probe, seed, CASES)?;
    let (tally, records) = campaign.compare()?;
    let states = campaign.start_states();
    let seconds = begun.elapsed().as_secs_f32();
    println!("agreed on {states} start states and {records} records in {seconds:.1} s\n");
    println!("how often each clause decided\n{}", coverage_table(&tally));
    LEAST.met_by(states, records)?;
    match tally.missing().as_slice() {
        [] => Ok(campaign),
        missing => Err(format!("clauses never met, seed {seed:#018X}: {missing:?}")),
    }
}
