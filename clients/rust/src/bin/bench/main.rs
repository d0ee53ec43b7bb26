//! The benchmark: the library and the reference on the same workloads, in one run.
//!
//! `bench SIDE WORKLOAD STORE ROUNDS` runs one and prints calls, nanoseconds and checksum: SIDE `ecgslope` or `reference`, WORKLOAD
//! `bring-up`, `engine`, `query` or `joined`, STORE the bytes 2688 or 9439232. Without arguments all are run.

mod sides;
mod workloads;

use std::process::ExitCode;
use workloads::{run_on, Run, Workload, STORES, WORKLOADS};

/// Runs of each side, alternating; the shortest counts.
const REPETITIONS: usize = 7;

fn main() -> ExitCode {
    let arguments: Vec<String> = std::env::args().skip(1).collect();
    if arguments.is_empty() {
        return table();
    }
    match one(&arguments) {
        Some(run) => {
            println!("calls {}", run.calls);
            println!("nanoseconds {}", run.nanoseconds);
            println!("checksum {:#018x}", run.checksum);
            ExitCode::SUCCESS
        }
        None => {
            eprintln!("usage: bench [ecgslope|reference bring-up|engine|query|joined 2688|9439232 ROUNDS]");
            ExitCode::FAILURE
        }
    }
}

fn one(arguments: &[String]) -> Option<Run> {
    let [side, workload, store, rounds] = arguments else {
        return None;
    };
    let (workload, _) = *WORKLOADS.iter().find(|(_, name)| name == workload)?;
    let bytes: usize = store.parse().ok()?;
    let store = STORES.iter().position(|store| store.1 == bytes)?;
    run_on(side, workload, store, rounds.parse().ok()?)
}

/// The rounds of a timed run. Bring-up is of 1,024 queue pairs.
fn rounds(workload: Workload) -> u64 {
    match workload {
        Workload::BringUp => 1024,
        Workload::Engine => 1500,
        Workload::QueryQp => 4000,
        Workload::Joined => 3000,
    }
}

fn table() -> ExitCode {
    println!(
        "{:<10} {:>12} {:>18} {:>18} {:>12}",
        "workload", "store bytes", "Rattle calls/s", "Rust calls/s", "Rattle/Rust"
    );
    let mut agree = true;
    for (workload, name) in WORKLOADS {
        for (store, (_, bytes)) in STORES.iter().enumerate() {
            let mut best: [Option<Run>; 2] = [None; 2];
            for _ in 0..REPETITIONS {
                for (best, side) in best.iter_mut().zip(["ecgslope", "reference"]) {
                    let run = run_on(side, workload, store, rounds(workload)).expect("a side");
                    if best.is_none_or(|best| run.nanoseconds < best.nanoseconds) {
                        *best = Some(run);
                    }
                }
            }
            let [Some(rattle), Some(rust)] = best else {
                unreachable!("every side was run");
            };
            if (rattle.calls, rattle.checksum) != (rust.calls, rust.checksum) {
                println!("{name}, {bytes}: the checksums differ");
                agree = false;
            }
            let per_second = |run: Run| run.calls as f64 * 1e9 / run.nanoseconds as f64;
            println!(
                "{name:<10} {bytes:>12} {:>18.0} {:>18.0} {:>12.2}",
                per_second(rattle),
                per_second(rust),
                rattle.nanoseconds as f64 / rust.nanoseconds as f64
            );
        }
    }
    match agree {
        true => ExitCode::SUCCESS,
        false => ExitCode::FAILURE,
    }
}
