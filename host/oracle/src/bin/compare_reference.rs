//! Runs the plain reading beside the original: `compare_reference [CALLS [SEED]]`.
//!
//! Prints one line with the counts. Exit 0 without a fault, 1 with one, 2 for wrong usage.

use oracle::{Reference, compare};
use std::process::ExitCode;
use std::time::Instant;

const CALLS: u64 = 1_000_000;
const SEED: u64 = 1;

fn main() -> ExitCode {
    let arguments: Vec<String> = std::env::args().skip(1).collect();
    let Some((calls, seed)) = numbers(&arguments) else {
        eprintln!("usage: compare_reference [CALLS [SEED]]");
        return ExitCode::from(2);
    };
    if oracle::original_at_hand().is_none() {
        eprintln!("built without the original: set VSSS_RS_SOURCE to its folder and build again");
        return ExitCode::from(2);
    }
    let start = Instant::now();
    let summary = compare::run(&Reference, calls, seed);
    println!("{summary}; {:.1} s", start.elapsed().as_secs_f64());
    for description in &summary.tally.descriptions {
        println!("{description}");
    }
    ExitCode::from(u8::from(summary.tally.faults > 0))
}

fn numbers(arguments: &[String]) -> Option<(u64, u64)> {
    match arguments {
        [] => Some((CALLS, SEED)),
        [calls] => Some((calls.parse().ok()?, SEED)),
        [calls, seed] => Some((calls.parse().ok()?, seed.parse().ok()?)),
        _ => None,
    }
}
