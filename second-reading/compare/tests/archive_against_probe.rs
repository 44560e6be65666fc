//! The archives and `probe`: a C program with an archive linked in takes each journal by one run
//! and record by record, and has to write what `probe` writes. A fixed seed and a fresh one.

use std::process::ExitCode;
use std::time::Instant;

use compare::{ended, fresh_seed, Campaign, Least, Program, KINDS};

const FIXED_SEED: u64 = 0xA2C4_11FE_0DE5_4C00;
const CASES: u64 = 8 * KINDS;
const LEAST: Least = Least {
    states: 200,
    records: 60_000,
};

fn main() -> ExitCode {
    ended(compare_all())
}

fn compare_all() -> Result<(), String> {
    let probe = Program::probe()?;
    let benches: Vec<Program> = Program::benches()?
        .iter()
        .flat_map(|bench| [bench.with("run"), bench.with("access")])
        .collect();
    stretch(&probe, &benches, "fixed", FIXED_SEED)?;
    stretch(&probe, &benches, "fresh", fresh_seed()?)
}

fn stretch(probe: &Program, benches: &[Program], name: &str, seed: u64) -> Result<(), String> {
    println!("{name} seed {seed:#018X}: {CASES} cases");
    let begun = Instant::now();
    let campaign = Campaign::run(probe, seed, CASES)?;
    // So that a wrong `probe` is not laid at the archive's door.
    let (_, records) = campaign.compare()?;
    for bench in benches {
        campaign.compare_with(bench)?;
    }
    let states = campaign.start_states();
    let seconds = begun.elapsed().as_secs_f32();
    let names: Vec<&str> = benches.iter().map(Program::name).collect();
    println!("probe, {} agreed", names.join(", "));
    println!("on {states} start states and {records} records in {seconds:.1} s");
    LEAST.met_by(states, records)
}
