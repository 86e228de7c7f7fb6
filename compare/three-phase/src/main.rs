//! Compares plain's three-phase meter with the proved core's, call by call and page
//! by page (02, A13). Random numbers and tables are drawn as in `compare`.

mod archive;
mod call;
mod case;
mod counts;
mod damage;
mod difference;
#[path = "../../compare/src/draw_table.rs"]
mod draw_table;
mod field;
mod generate;
mod options;
mod planted;
#[path = "../../compare/src/random.rs"]
mod random;
mod run;
mod sides;
#[path = "../../compare/src/table.rs"]
mod table;

use counts::{Counts, Demand};
use options::{Options, USAGE};
use planted::PLANTED;
use run::{Found, Plan, run};
use std::collections::BTreeMap;
use std::fmt::Display;
use std::process::ExitCode;

/// A run against the stand-in says so: it shows nothing about the core.
const STAND_IN: &str = match pillar::STAND_IN {
    true => " (stand-in: plain against itself)",
    false => "",
};

fn main() -> ExitCode {
    let arguments = std::env::args().skip(1);
    let options = match Options::read(arguments, || std::env::var_os("COMPARE_SEED")) {
        Ok(options) => options,
        Err(wrong) => {
            eprintln!("{wrong}\n{USAGE}");
            return ExitCode::from(2);
        }
    };
    println!("seed {}{STAND_IN}", options.seed);
    let plan = Plan {
        seed: options.seed,
        demand: Demand {
            calls: options.calls,
            pages: options.pages,
        },
        time: options.time,
    };
    if options.planted {
        return find_planted(&plan);
    }
    match run::<{ plain::fault::NONE }>(&plan) {
        Ok(counts) => report(&counts, &plan),
        Err(found) => {
            report_difference(&found, &plan);
            ExitCode::FAILURE
        }
    }
}

/// Every blunder must be found; each run ends at its first difference.
fn find_planted(plan: &Plan) -> ExitCode {
    let mut missed = 0;
    for (name, run) in PLANTED {
        match run(plan) {
            Ok(counts) => {
                println!("NOT found: {name}, in {} calls", counts.calls);
                missed += 1;
            }
            Err(found) => {
                let Counts { calls, pages, .. } = found.counts;
                let place = &found.place;
                println!("found: {name}, after {calls} calls and {pages} pages, {place}");
                println!("  {}", found.difference.brief());
            }
        }
    }
    println!(
        "planted {}, found {}, seed {}{STAND_IN}",
        PLANTED.len(),
        PLANTED.len() - missed,
        plan.seed
    );
    if missed > 0 {
        println!("FAILED: {missed} not found");
        return ExitCode::FAILURE;
    }
    ExitCode::SUCCESS
}

/// What was compared without a difference; too little of it is a failure.
fn report(counts: &Counts, plan: &Plan) -> ExitCode {
    println!("answers {}", listed(&counts.answers));
    println!("letters {}", listed(&counts.letters));
    println!(
        "lists replayed: {}, answers {}",
        counts.lists,
        listed(&counts.replay_answers)
    );
    for (case, times) in &counts.cases {
        println!("{case}: {times}");
    }
    let compared = format!(
        "compared {} calls, {} damaged pages, {} pages of the sweeps, seed {}",
        counts.calls, counts.pages, counts.swept, plan.seed
    );
    let lacking = counts.lacking(plan.demand);
    if lacking.is_empty() {
        println!("{compared}: no difference{STAND_IN}");
        return ExitCode::SUCCESS;
    }
    println!("{compared}: TOO LITTLE{STAND_IN}");
    for lack in lacking {
        println!("FAILED: {lack}");
    }
    ExitCode::FAILURE
}

fn listed<T: Display>(answers: &BTreeMap<T, u64>) -> String {
    let answers = answers.iter();
    let answers: Vec<_> = answers
        .map(|(answer, times)| format!("{answer}: {times}"))
        .collect();
    answers.join(", ")
}

fn report_difference(found: &Found, plan: &Plan) {
    let Counts { calls, pages, .. } = found.counts;
    println!(
        "DIFFERENCE: seed {}, after {calls} calls and {pages} damaged pages, {}",
        plan.seed, found.place
    );
    println!("{}", found.difference);
    println!(
        "again: cargo run --offline --release -p three-phase -- --seed {} --calls {} --pages {}",
        plan.seed, plan.demand.calls, plan.demand.pages
    );
}
