//! Berths of three columns, the energy of two days, and four bills: prints what
//! `tools/harbour` prints for the same texts of `tools/examples`, in its words.

mod common;

use common::{Outcome, Output, refused};
use pillar::harbour::{self, Berth, Day, Energy, RATES};
use std::io::Write;
use std::process::ExitCode;

/// Limit, then guarantee, cap and demand of each berth: harbour-berths.txt.
const COLUMNS: [(i32, &[[i32; 3]]); 3] = [
    (
        30_000,
        &[
            [6000, 16000, 12000],
            [6000, 16000, 4000],
            [6000, 9000, 20000],
            [6000, 16000, 10000],
            [0, 16000, -500],
        ],
    ),
    (20_000, &[[5000, 8000, 6000], [5000, 8000, 9000]]),
    (10_000, &[[5000, 8000, 6000], [5000, 8000, 9000]]),
];

/// A power and how many samples in a row had it, of two days: harbour-samples.txt.
const DAYS: [&[(i32, usize)]; 2] = [
    &[(1000, 3599), (-250, 100), (i32::MIN, 1), (7, 1)],
    &[(2000, 1800), (993, 1), (-100, 1)],
];

/// In cents per kilowatt-hour: harbour-bills.txt, which has the same bill four times.
const PRICES: [u32; RATES] = [25, 31, 18, 40];
const IMPORTS: [Energy; RATES] = [
    energy(2000, 0),
    energy(500, 3599),
    energy(0, 0),
    energy(12345, 1),
];
const BILLS: usize = 4;

const fn energy(watt_hours: u64, watt_seconds: u64) -> Energy {
    Energy {
        watt_hours,
        watt_seconds,
    }
}

fn main() -> ExitCode {
    common::run(|output| {
        for (place, (limit, given)) in (1..).zip(COLUMNS) {
            column(output, place, limit, given)?;
        }
        days(output)?;
        bills(output)
    })
}

fn column(output: &mut Output, place: usize, limit: i32, given: &[[i32; 3]]) -> Outcome {
    let berth = |&[guarantee, cap, demand]: &[i32; 3]| Berth {
        guarantee,
        cap,
        demand,
        allotment: 0,
    };
    let mut berths: Vec<_> = given.iter().map(berth).collect();
    harbour::allot(limit, &mut berths).map_err(refused)?;
    writeln!(output, "column {place}: limit {limit} W")?;
    for (place, berth) in (1..).zip(&berths) {
        let Berth {
            guarantee,
            cap,
            demand,
            allotment,
        } = berth;
        writeln!(
            output,
            "berth {place}: guarantee {guarantee} W, cap {cap} W, demand {demand} W, \
             allotment {allotment} W"
        )?;
    }
    let allotted: i32 = berths.iter().map(|berth| berth.allotment).sum();
    writeln!(
        output,
        "allotted: {allotted} W, {} W left",
        limit - allotted
    )?;
    Ok(())
}

fn days(output: &mut Output) -> Outcome {
    let mut joined = Day::default();
    for (place, runs) in (1..).zip(DAYS) {
        let samples = runs.iter().flat_map(|&(power, times)| vec![power; times]);
        let samples: Vec<_> = samples.collect();
        let mut day = Day::default();
        harbour::energy_of_day(&samples, &mut day).map_err(refused)?;
        harbour::join(&mut joined, &day).map_err(refused)?;
        let (count, day) = (samples.len(), shown(&day));
        writeln!(output, "day {place}: {count} samples, {day}")?;
    }
    writeln!(output, "joined: {}", shown(&joined))?;
    Ok(())
}

fn shown(day: &Day) -> String {
    let Day { import, export } = day;
    format!(
        "import {} Wh {} Ws, export {} Wh {} Ws",
        import.watt_hours, import.watt_seconds, export.watt_hours, export.watt_seconds
    )
}

fn bills(output: &mut Output) -> Outcome {
    let mut rest = 0;
    let mut sum = 0;
    for place in 1..=BILLS {
        let mut cents = 0;
        harbour::bill(&PRICES, &IMPORTS, &mut rest, &mut cents).map_err(refused)?;
        sum += cents;
        writeln!(output, "bill {place}: {cents} cents, rest {rest}")?;
    }
    writeln!(output, "sum: {sum} cents, rest {rest}")?;
    Ok(())
}
