//! Compares plain with the proved core, request by request: number, answer, length,
//! letter, page and the bytes that stay.

mod apdu;
mod counts;
// Shared with the comparison of calls.
#[allow(dead_code)]
#[path = "../../compare/src/field.rs"]
mod field;
mod form;
mod generate;
mod meter;
mod options;
mod planted;
#[path = "../../compare/src/random.rs"]
mod random;
mod run;
mod sides;

use counts::Counts;
use options::{Options, USAGE};
use planted::PLANTED;
use run::{Found, run};
use std::process::ExitCode;

/// A run against the stand-in says so: it shows nothing about the core.
const STAND_IN: &str = match pillar::STAND_IN {
    true => " (stand-in: plain against itself)",
    false => "",
};

fn main() -> ExitCode {
    let options = match Options::read(std::env::args().skip(1)) {
        Ok(options) => options,
        Err(wrong) => {
            eprintln!("{wrong}\n{USAGE}");
            return ExitCode::from(2);
        }
    };
    println!("seed {}{STAND_IN}", options.seed);
    if options.planted {
        return find_planted(&options);
    }
    match run::<{ plain::fault::NONE }>(&options) {
        Ok(counts) => report(&counts, &options),
        Err(found) => {
            report_difference(&found, &options);
            ExitCode::FAILURE
        }
    }
}

/// Every blunder must be found; each run ends at its first difference.
fn find_planted(options: &Options) -> ExitCode {
    let mut missed = 0;
    for (name, run) in PLANTED {
        match run(options) {
            Ok(counts) => {
                println!("NOT found: {name}, in {} requests", counts.requests);
                missed += 1;
            }
            Err(found) => {
                println!("found: {name}, after {} requests", found.requests);
                println!("  {}", found.difference.brief());
            }
        }
    }
    let found = PLANTED.len() - missed;
    let seed = options.seed;
    println!("planted {}, found {found}, seed {seed}", PLANTED.len());
    if missed > 0 {
        println!("FAILED: {missed} not found");
        return ExitCode::FAILURE;
    }
    ExitCode::SUCCESS
}

/// What was compared without a difference; too little of it is a failure.
fn report(counts: &Counts, options: &Options) -> ExitCode {
    for (met, times) in &counts.met {
        println!("{met}: {times}");
    }
    let compared = format!(
        "compared {} requests, {} calls between them, seed {}",
        counts.requests, counts.calls, options.seed
    );
    let lacking = counts.lacking(options.requests);
    if lacking.is_empty() {
        println!("{compared}: no difference{STAND_IN}");
        return ExitCode::SUCCESS;
    }
    println!("{compared}: TOO LITTLE{STAND_IN}");
    for lack in lacking {
        println!("FAILED: {lack}");
    }
    ExitCode::FAILURE
}

fn report_difference(found: &Found, options: &Options) {
    let Found {
        difference,
        requests,
    } = found;
    println!(
        "DIFFERENCE: seed {}, after {requests} requests",
        options.seed
    );
    println!("{difference}");
    println!(
        "again: cargo run --offline --release -p request -- --seed {} --requests {}",
        options.seed,
        requests + 1
    );
}
