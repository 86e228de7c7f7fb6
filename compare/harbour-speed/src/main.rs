//! Measures the proved core and plain on berths, energy and tariff (02, A10 to
//! A12) and prints what each costs, with the ratio: the shortest time of many, or
//! exact instructions. Table and counting are those of `speed`.

#[path = "../../speed/src/instructions.rs"]
mod instructions;
mod item;
mod side;
#[path = "../../speed/src/table.rs"]
mod table;
mod timing;

use side::{Plain, Proved, Sides};
use std::process::ExitCode;

const TIMINGS: usize = 500;
const QUICK_TIMINGS: usize = 50;

fn main() -> ExitCode {
    let arguments: Vec<_> = std::env::args().skip(1).collect();
    let words: Vec<_> = arguments.iter().map(String::as_str).collect();
    let sides: Sides = [&Proved, &Plain];
    let items = item::items();
    let ended = match words[..] {
        [] => Some(timing::run(&items, sides, TIMINGS)),
        ["--quick"] => Some(timing::run(&items, sides, QUICK_TIMINGS)),
        ["--instructions"] => Some(instructions::run(&items, sides)),
        [instructions::COUNTED, ref words @ ..] => instructions::run_counted(&items, sides, words),
        _ => None,
    };
    ended.unwrap_or_else(|| {
        eprintln!("usage: harbour-speed [--quick | --instructions]");
        ExitCode::from(2)
    })
}
