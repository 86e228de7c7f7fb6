//! Times the sides in interleaved rounds.

use crate::item::{Item, LENGTHS, mixed_name};
use crate::side::{SIDES, Sides};
use crate::table::{self, Unit};
use std::process::ExitCode;
use std::time::{Duration, Instant};

/// How often the rounds are run at most.
const ATTEMPTS: usize = 5;

/// More than this from the shortest to the longest list counts as growth.
const GROWTH: f64 = 1.5;

const UNIT: Unit = Unit {
    name: "ns",
    decimals: 1,
};

/// The shortest time of each side.
type Best = [Duration; SIDES];

/// Prints the table of the shortest times, and fails where the results of the
/// sides differ or the cost of a record grows with its list.
pub fn run(items: &[Item], sides: Sides, timings: usize) -> ExitCode {
    let mut bests = vec![[Duration::MAX; SIDES]; items.len()];
    // A busy machine can make long lists look dear: then measure once more.
    for _ in 0..ATTEMPTS {
        if let Err(item) = measure(items, sides, timings, &mut bests) {
            println!("DIFFERENCE: the digests of '{}' differ", item.name);
            return ExitCode::FAILURE;
        }
        if steady(items, &bests) {
            break;
        }
    }
    table::print_head(sides, &UNIT);
    for (item, best) in items.iter().zip(&bests) {
        table::print_row(item, best.map(|time| nanoseconds(item, time)), &UNIT);
    }
    print_growth(items, sides, &bests);
    println!("the digests of all sides agree");
    if !steady(items, &bests) {
        println!("GROWS: the cost of a record grows with the list");
        return ExitCode::FAILURE;
    }
    ExitCode::SUCCESS
}

/// Times every item on each side, `timings` times over, the sides taking turns
/// to be first. Stops at an item whose results differ.
fn measure<'a>(
    items: &'a [Item],
    sides: Sides,
    timings: usize,
    bests: &mut [Best],
) -> Result<(), &'a Item> {
    for timing in 0..timings {
        for (item, best) in items.iter().zip(&mut *bests) {
            let mut digests = [0; SIDES];
            for turn in 0..SIDES {
                let side = (timing + turn) % SIDES;
                let start = Instant::now();
                digests[side] = item.run(sides[side], item.rounds);
                best[side] = best[side].min(start.elapsed());
            }
            if digests != [digests[0]; SIDES] {
                return Err(item);
            }
        }
    }
    Ok(())
}

/// The cost of a record must not grow with the list's length.
fn steady(items: &[Item], bests: &[Best]) -> bool {
    (0..SIDES).all(|side| growth(items, bests, side) < GROWTH)
}

fn print_growth(items: &[Item], sides: Sides, bests: &[Best]) {
    let [shortest, .., longest] = LENGTHS;
    for (place, side) in sides.iter().enumerate() {
        let growth = growth(items, bests, place);
        let name = side.name();
        println!("{name}: a record of {longest} costs {growth:.2} times one of {shortest}");
    }
}

/// The cost of a record in the longest list over that in the shortest.
fn growth(items: &[Item], bests: &[Best], side: usize) -> f64 {
    let cost = |length: usize| {
        let name = mixed_name(length);
        let place = items.iter().position(|item| item.name == name);
        let place = place.expect("every length has its list");
        nanoseconds(&items[place], bests[place][side])
    };
    let [shortest, .., longest] = LENGTHS;
    cost(longest) / cost(shortest)
}

fn nanoseconds(item: &Item, time: Duration) -> f64 {
    time.as_secs_f64() * 1e9 / item.operations_in(item.rounds)
}
