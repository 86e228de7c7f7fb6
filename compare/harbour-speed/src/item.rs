//! The jobs that are measured.

use crate::side::Side;
use pillar::harbour::{Berth, Day, Energy, RATES};

/// How often a short job is done within one timing.
const TIMES: u32 = 2_000;

/// The samples of a whole day.
const SAMPLES: usize = 86_400;

pub struct Item {
    pub name: String,
    /// How many operations a round has.
    pub operations: usize,
    /// How many rounds one timing has.
    pub rounds: u32,
    job: Job,
}

enum Job {
    Day(Vec<i32>),
    Join(Day),
    Bill([u32; RATES], [Energy; RATES]),
    Allot(i32, Vec<Berth>),
}

impl Item {
    /// Does the job and answers a digest of what came of it.
    pub fn run(&self, side: &dyn Side, rounds: u32) -> u64 {
        digest(&match &self.job {
            Job::Day(samples) => side.energy_of_day(samples, rounds),
            Job::Join(day) => side.join(day, rounds),
            Job::Bill(prices, imports) => side.bill(prices, imports, rounds),
            Job::Allot(limit, berths) => side.allot(*limit, berths, rounds),
        })
    }

    /// How many operations so many rounds have.
    pub fn operations_in(&self, rounds: u32) -> f64 {
        self.operations as f64 * f64::from(rounds)
    }
}

/// Every item, in the table's order.
pub fn items() -> Vec<Item> {
    let import = day(|place| (place * 7919 % 16_000) as i32);
    // Its signs have no pattern that a processor could foretell.
    let both = day(|place| scattered(place) % 16_000);
    let energy = |watt_hours, watt_seconds| Energy {
        watt_hours,
        watt_seconds,
    };
    let joined = Day {
        import: energy(12_345, 2_607),
        export: energy(678, 3_599),
    };
    let prices = [25, 31, 18, 40];
    let small = [
        energy(2_000, 0),
        energy(500, 3_599),
        energy(0, 0),
        energy(12_345, 1),
    ];
    let great = [energy(1 << 31, 3_599); RATES];
    vec![
        item("energy of a day, import", 1, Job::Day(import)),
        item("energy of a day, both directions", 1, Job::Day(both)),
        item("join", TIMES, Job::Join(joined)),
        item("bill", TIMES, Job::Bill(prices, small)),
        item(
            "bill, the highest",
            TIMES,
            Job::Bill([1_000_000; RATES], great),
        ),
        item("allotment, 1 berth", TIMES, Job::Allot(20_000, berths(1))),
        item(
            "allotment, 16 berths",
            TIMES,
            Job::Allot(100_000, berths(16)),
        ),
    ]
}

fn item(name: &str, rounds: u32, job: Job) -> Item {
    Item {
        name: String::from(name),
        operations: 1,
        rounds,
        job,
    }
}

fn day(power: impl Fn(usize) -> i32) -> Vec<i32> {
    (0..SAMPLES).map(power).collect()
}

fn scattered(place: usize) -> i32 {
    let mixed = (place as u64 + 1).wrapping_mul(0x9e37_79b9_7f4a_7c15);
    ((mixed ^ (mixed >> 29)).wrapping_mul(0xbf58_476d_1ce4_e5b9) >> 32) as i32
}

/// Demands below the guarantee, between it and the cap, above the cap and below 0.
fn berths(count: usize) -> Vec<Berth> {
    let demands = [2_000, 8_000, 20_000, -500];
    let berth = |demand: &i32| Berth {
        guarantee: 3_000,
        cap: 16_000,
        demand: *demand,
        allotment: 0,
    };
    demands.iter().cycle().take(count).map(berth).collect()
}

/// FNV-1a over the numbers.
fn digest(numbers: &[u64]) -> u64 {
    let mut digest = 0xcbf2_9ce4_8422_2325;
    for byte in numbers.iter().flat_map(|number| number.to_be_bytes()) {
        digest = (digest ^ u64::from(byte)).wrapping_mul(0x100_0000_01b3);
    }
    digest
}
