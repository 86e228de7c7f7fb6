//! Times the sides in interleaved rounds.

use crate::item::Item;
use crate::side::{SIDES, Sides};
use crate::table::{self, Unit};
use std::process::ExitCode;
use std::time::{Duration, Instant};

const UNIT: Unit = Unit {
    name: "ns",
    decimals: 1,
};

/// Prints the table of the shortest times, and fails where the results of the
/// sides differ.
pub fn run(items: &[Item], sides: Sides, timings: usize) -> ExitCode {
    let mut bests = vec![[Duration::MAX; SIDES]; items.len()];
    for timing in 0..timings {
        for (item, best) in items.iter().zip(&mut bests) {
            let mut digests = [0; SIDES];
            for turn in 0..SIDES {
                let side = (timing + turn) % SIDES;
                let start = Instant::now();
                digests[side] = item.run(sides[side], item.rounds);
                best[side] = best[side].min(start.elapsed());
            }
            if digests != [digests[0]; SIDES] {
                println!("DIFFERENCE: the digests of '{}' differ", item.name);
                return ExitCode::FAILURE;
            }
        }
    }
    table::print_head(sides, &UNIT);
    for (item, best) in items.iter().zip(&bests) {
        let cost = |time: Duration| time.as_secs_f64() * 1e9 / item.operations_in(item.rounds);
        table::print_row(item, best.map(cost), &UNIT);
    }
    println!("the digests of both sides agree");
    ExitCode::SUCCESS
}
