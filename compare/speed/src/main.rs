//! Measures the proved core and plain, idiomatic and vectorised, on the same jobs
//! and prints what each costs, with the ratios: the shortest time of many, or
//! exact instructions.

mod event_table;
mod instructions;
mod item;
#[cfg(not(feature = "stand-in"))]
mod measure;
mod plain_side;
mod proved_side;
mod side;
mod start;
mod table;
mod timing;

use plain_side::Plain;
use proved_side::Proved;
use side::Sides;
use std::process::ExitCode;

const TIMINGS: usize = 200;
const QUICK_TIMINGS: usize = 20;

fn main() -> ExitCode {
    let arguments: Vec<_> = std::env::args().skip(1).collect();
    let words: Vec<_> = arguments.iter().map(String::as_str).collect();
    let sides: Sides = [&Proved, &Plain::<false>, &Plain::<true>];
    let items = item::items();
    let ended = match words[..] {
        [] => Some(timing::run(&items, sides, TIMINGS)),
        ["--quick"] => Some(timing::run(&items, sides, QUICK_TIMINGS)),
        ["--instructions"] => Some(instructions::run(&items, sides)),
        [instructions::COUNTED, ref words @ ..] => instructions::run_counted(&items, sides, words),
        _ => None,
    };
    ended.unwrap_or_else(|| {
        eprintln!("usage: speed [--quick | --instructions]");
        ExitCode::from(2)
    })
}
