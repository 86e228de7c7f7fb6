//! Counts the instructions of the proved core and of plain on the three-phase meter
//! (02, A13), the one-phase meter beside it. Table and counting are those of `speed`.

#[path = "../../three-phase/src/archive.rs"]
#[expect(dead_code, reason = "nothing is measured of `check`")]
mod archive;
#[path = "../../speed/src/instructions.rs"]
mod instructions;
mod item;
mod side;
#[path = "../../speed/src/table.rs"]
mod table;

use side::{Plain, Proved, Sides};
use std::process::ExitCode;

fn main() -> ExitCode {
    let arguments: Vec<_> = std::env::args().skip(1).collect();
    let words: Vec<_> = arguments.iter().map(String::as_str).collect();
    let sides: Sides = [&Proved, &Plain];
    let items = item::items();
    let ended = match words[..] {
        [] | ["--instructions"] => Some(instructions::run(&items, sides)),
        [instructions::COUNTED, ref words @ ..] => instructions::run_counted(&items, sides, words),
        _ => None,
    };
    ended.unwrap_or_else(|| {
        eprintln!("usage: three-phase-speed [--instructions]");
        ExitCode::from(2)
    })
}
