//! What is measured: each function of the proved core beside plain's.

use pillar::harbour::{self, Berth, Day, Energy, RATES};
use plain::{berths, energy, tariff};
use std::hint::black_box;

/// The proved core first, then plain.
pub type Sides<'a> = [&'a dyn Side; SIDES];
pub const SIDES: usize = 2;

/// One side. Each job is done `rounds` times over and answers numbers that show
/// what was done.
pub trait Side: Sync {
    fn name(&self) -> &'static str;

    /// The energy of the samples.
    fn energy_of_day(&self, samples: &[i32], rounds: u32) -> Vec<u64>;

    /// Joins the day to nothing, and then to what came of it.
    fn join(&self, day: &Day, rounds: u32) -> Vec<u64>;

    /// Bills the imports, each time with the rest of the time before.
    fn bill(&self, prices: &[u32; RATES], imports: &[Energy; RATES], rounds: u32) -> Vec<u64>;

    /// Allots to the berths, the limit counting the rounds down.
    fn allot(&self, limit: i32, berths: &[Berth], rounds: u32) -> Vec<u64>;
}

pub struct Proved;

impl Side for Proved {
    fn name(&self) -> &'static str {
        if pillar::STAND_IN {
            return "stand-in";
        }
        "proved"
    }

    fn energy_of_day(&self, samples: &[i32], rounds: u32) -> Vec<u64> {
        let mut day = Day::default();
        for _ in 0..rounds {
            accept(harbour::energy_of_day(black_box(samples), &mut day));
            black_box(&day);
        }
        numbers(&day)
    }

    fn join(&self, day: &Day, rounds: u32) -> Vec<u64> {
        let mut joined = Day::default();
        for _ in 0..rounds {
            accept(harbour::join(black_box(&mut joined), black_box(day)));
        }
        numbers(&joined)
    }

    fn bill(&self, prices: &[u32; RATES], imports: &[Energy; RATES], rounds: u32) -> Vec<u64> {
        let (mut rest, mut cents, mut sum) = (0, 0, 0);
        for _ in 0..rounds {
            let imports = black_box(imports);
            accept(harbour::bill(
                black_box(prices),
                imports,
                &mut rest,
                &mut cents,
            ));
            sum += cents;
        }
        vec![sum, rest.into()]
    }

    fn allot(&self, limit: i32, berths: &[Berth], rounds: u32) -> Vec<u64> {
        let mut berths = berths.to_vec();
        for round in 0..rounds as i32 {
            accept(harbour::allot(limit - round, black_box(&mut berths)));
        }
        let allotments = berths.iter().map(|berth| berth.allotment as u64);
        allotments.collect()
    }
}

pub struct Plain;

impl Side for Plain {
    fn name(&self) -> &'static str {
        "idiomatic"
    }

    fn energy_of_day(&self, samples: &[i32], rounds: u32) -> Vec<u64> {
        let mut day = energy::Day::default();
        for _ in 0..rounds {
            day = accepted(energy::Day::of(black_box(samples)));
            black_box(&day);
        }
        plain_numbers(&day)
    }

    fn join(&self, day: &Day, rounds: u32) -> Vec<u64> {
        let day = energy::Day {
            import: plain_energy(day.import),
            export: plain_energy(day.export),
        };
        let mut joined = energy::Day::default();
        for _ in 0..rounds {
            joined = accepted(black_box(joined).joined(*black_box(&day)));
        }
        plain_numbers(&joined)
    }

    fn bill(&self, prices: &[u32; RATES], imports: &[Energy; RATES], rounds: u32) -> Vec<u64> {
        let imports = imports.map(plain_energy);
        let (mut rest, mut sum) = (0, 0);
        for _ in 0..rounds {
            let bill = accepted(tariff::bill(black_box(prices), black_box(&imports), rest));
            rest = bill.rest;
            sum += bill.cents;
        }
        vec![sum, rest.into()]
    }

    fn allot(&self, limit: i32, berths: &[Berth], rounds: u32) -> Vec<u64> {
        let berth = |berth: &Berth| berths::Berth {
            guarantee: berth.guarantee,
            cap: berth.cap,
            demand: berth.demand,
            allotment: berth.allotment,
        };
        let mut berths: Vec<_> = berths.iter().map(berth).collect();
        for round in 0..rounds as i32 {
            accepted(berths::allot(limit - round, black_box(&mut berths)));
        }
        let allotments = berths.iter().map(|berth| berth.allotment as u64);
        allotments.collect()
    }
}

fn accept(answer: pillar::Answer) {
    answer.expect("what is measured is accepted");
}

fn accepted<T>(answer: Result<T, u8>) -> T {
    answer.expect("what is measured is accepted")
}

fn plain_energy(energy: Energy) -> energy::Energy {
    energy::Energy {
        watt_hours: energy.watt_hours,
        watt_seconds: energy.watt_seconds,
    }
}

fn numbers(day: &Day) -> Vec<u64> {
    let energies = [day.import, day.export].map(|each| [each.watt_hours, each.watt_seconds]);
    energies.concat()
}

fn plain_numbers(day: &energy::Day) -> Vec<u64> {
    let energies = [day.import, day.export].map(|each| [each.watt_hours, each.watt_seconds]);
    energies.concat()
}
