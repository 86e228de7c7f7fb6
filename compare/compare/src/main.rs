//! Compares plain with the proved core, call by call and page by page.

mod call;
mod case;
mod counts;
mod damage;
mod difference;
mod draw_table;
mod field;
mod generate;
mod options;
mod planted;
mod random;
mod run;
mod sides;
mod sweep_table;
mod table;
mod table_case;

use counts::Counts;
use options::{Options, USAGE};
use planted::PLANTED;
use run::{Found, Plan, run};
use std::collections::BTreeMap;
use std::fmt::Display;
use std::process::ExitCode;

/// A run against the stand-in says so: it shows nothing about the core.
const STAND_IN: &str = match pillar::STAND_IN {
    true => " (stand-in: plain against itself)",
    false => "",
};

fn main() -> ExitCode {
    let arguments = std::env::args().skip(1);
    let options = match Options::read(arguments, || std::env::var_os("COMPARE_SEED")) {
        Ok(options) => options,
        Err(wrong) => {
            eprintln!("{wrong}\n{USAGE}");
            return ExitCode::from(2);
        }
    };
    println!("seed {}{STAND_IN}", options.seed);
    if options.planted {
        return find_planted(&options);
    }
    match run::<{ plain::fault::NONE }>(&plan(&options)) {
        Ok(counts) => report(&counts, &options),
        Err(found) => {
            report_difference(&found, options.seed);
            ExitCode::FAILURE
        }
    }
}

fn plan(options: &Options) -> Plan {
    Plan {
        seed: options.seed,
        calls: options.calls,
        time: options.time,
    }
}

/// Every blunder must be found; each run ends at its first difference.
fn find_planted(options: &Options) -> ExitCode {
    let mut missed = 0;
    for (name, run) in PLANTED {
        let found = match run(&plan(options)) {
            Ok(counts) => {
                println!("NOT found: {name}, in {} calls", counts.calls);
                missed += 1;
                continue;
            }
            Err(found) => found,
        };
        let calls = found.counts.calls;
        let place = &found.place;
        println!("found: {name}, after {calls} calls, {place}");
        println!("  {}", found.difference.brief());
    }
    println!(
        "planted {}, found {}, seed {}",
        PLANTED.len(),
        PLANTED.len() - missed,
        options.seed
    );
    if missed > 0 {
        println!("FAILED: {missed} not found");
        return ExitCode::FAILURE;
    }
    ExitCode::SUCCESS
}

/// What was compared without a difference; too little of it is a failure.
fn report(counts: &Counts, options: &Options) -> ExitCode {
    println!("answers {}", listed(&counts.answers));
    println!("letters {}", listed(&counts.letters));
    println!(
        "lists replayed: {}, answers {}",
        counts.lists,
        listed(&counts.replay_answers)
    );
    println!(
        "tables judged: {}, answers {}",
        counts.tables,
        listed(&counts.table_answers)
    );
    for (case, times) in &counts.cases {
        println!("{}: {times}", case.name());
    }
    for (case, times) in &counts.table_cases {
        println!("{}: {times}", case.name());
    }
    let compared = format!(
        "compared {} calls, {} damaged pages, {} tables, seed {}",
        counts.calls, counts.pages, counts.tables, options.seed
    );
    let lacking = counts.lacking(options.calls);
    if lacking.is_empty() {
        println!("{compared}: no difference{STAND_IN}");
        return ExitCode::SUCCESS;
    }
    println!("{compared}: TOO LITTLE{STAND_IN}");
    for lack in lacking {
        println!("FAILED: {lack}");
    }
    ExitCode::FAILURE
}

fn listed<T: Display>(answers: &BTreeMap<T, u64>) -> String {
    let answers = answers.iter();
    let answers: Vec<_> = answers
        .map(|(answer, times)| format!("{answer}: {times}"))
        .collect();
    answers.join(", ")
}

fn report_difference(found: &Found, seed: u64) {
    let calls = found.counts.calls;
    println!(
        "DIFFERENCE: seed {seed}, after {calls} calls and {} damaged pages, {}",
        found.counts.pages, found.place
    );
    println!("{}", found.difference);
    println!(
        "again: cargo run --offline --release -p compare -- --seed {seed} --calls {}",
        calls + 1
    );
}
