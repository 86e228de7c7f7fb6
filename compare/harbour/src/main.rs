//! Compares plain with the proved core on a column's berths, the energy of a day,
//! joins and bills (02, A10 to A12), and tries their laws.

mod berths;
mod energy;
mod options;
mod planted;
mod random;
mod run;
mod sides;
mod tariff;

use options::{Options, USAGE};
use planted::PLANTED;
use run::{Counts, Found, Plan, Subject, run};
use std::process::ExitCode;

/// A run against the stand-in says so: it shows nothing about the core.
const STAND_IN: &str = match pillar::STAND_IN {
    true => " (stand-in: plain against itself)",
    false => "",
};

fn main() -> ExitCode {
    let arguments = std::env::args().skip(1);
    let options = match Options::read(arguments, || std::env::var_os("COMPARE_SEED")) {
        Ok(options) => options,
        Err(wrong) => {
            eprintln!("{wrong}\n{USAGE}");
            return ExitCode::from(2);
        }
    };
    println!("seed {}{STAND_IN}", options.seed);
    let plan = Plan {
        seed: options.seed,
        cases: options.cases,
        laws: !options.planted,
    };
    if options.planted {
        return find_planted(&plan);
    }
    let right = [
        compared::<berths::Berths>(&plan),
        compared::<energy::Samples>(&plan),
        compared::<energy::Joins>(&plan),
        compared::<tariff::Bills>(&plan),
    ];
    if right.iter().all(|right| *right) {
        ExitCode::SUCCESS
    } else {
        ExitCode::FAILURE
    }
}

/// Whether a function was compared without a difference, and enough of it.
fn compared<S: Subject>(plan: &Plan) -> bool {
    match run::<S, 0>(plan) {
        Ok(counts) => report::<S>(&counts, plan),
        Err(Found { what, cases }) => {
            println!("{what}");
            println!("FAILED: seed {}, case {cases}", plan.seed);
            false
        }
    }
}

fn report<S: Subject>(counts: &Counts, plan: &Plan) -> bool {
    let listed = |answers: &[(String, u64)]| {
        let answers = answers
            .iter()
            .map(|(name, times)| format!("{name}: {times}"));
        answers.collect::<Vec<_>>().join(", ")
    };
    let answers: Vec<_> = counts
        .answers
        .iter()
        .map(|(answer, times)| (answer.to_string(), *times))
        .collect();
    println!("{}: answers {}", S::NAME, listed(&answers));
    for (name, times) in counts.edges.iter().chain(&counts.laws) {
        println!("  {name}: {times}");
    }
    let compared = format!(
        "{}: compared {} cases, seed {}",
        S::NAME,
        counts.cases,
        plan.seed
    );
    let lacking = counts.lacking::<S>(plan.cases);
    if lacking.is_empty() {
        println!("{compared}: no difference{STAND_IN}");
        return true;
    }
    println!("{compared}: TOO LITTLE{STAND_IN}");
    for lack in lacking {
        println!("FAILED: {lack}");
    }
    false
}

/// Every blunder must be found; each run ends at its first difference.
fn find_planted(plan: &Plan) -> ExitCode {
    let mut missed = 0;
    for (name, run) in PLANTED {
        match run(plan) {
            Ok(counts) => {
                println!("NOT found: {name}, in {} cases", counts.cases);
                missed += 1;
            }
            Err(found) => println!("found: {name}, at case {}", found.cases),
        }
    }
    println!(
        "planted {}, found {}, seed {}{STAND_IN}",
        PLANTED.len(),
        PLANTED.len() - missed,
        plan.seed
    );
    if missed > 0 {
        println!("FAILED: {missed} not found");
        return ExitCode::FAILURE;
    }
    ExitCode::SUCCESS
}
