//! The two sides: the proved core, and plain with a planted blunder or none.

use pillar::harbour::{self, Berth, Day, Energy, RATES};
use plain::{berths, energy, tariff};

/// The functions, as the C interface has them: the answer is 0 or the number
/// of a refusal, and what is lent holds what was made.
pub trait Side {
    fn allot(limit: i32, berths: &mut [Berth]) -> u32;
    fn energy_of_day(samples: &[i32], day: &mut Day) -> u32;
    fn join(day: &mut Day, other: &Day) -> u32;
    fn bill(
        prices: &[u32; RATES],
        imports: &[Energy; RATES],
        rest: &mut u32,
        cents: &mut u64,
    ) -> u32;
}

/// The archive.
pub struct Proved;

/// `FAULT` is one of `plain::berths::fault`, `plain::energy::fault` or
/// `plain::tariff::fault`, whose numbers differ, or 0 for none.
pub struct Plain<const FAULT: u8>;

impl Side for Proved {
    fn allot(limit: i32, berths: &mut [Berth]) -> u32 {
        pillar_number(harbour::allot(limit, berths))
    }

    fn energy_of_day(samples: &[i32], day: &mut Day) -> u32 {
        pillar_number(harbour::energy_of_day(samples, day))
    }

    fn join(day: &mut Day, other: &Day) -> u32 {
        pillar_number(harbour::join(day, other))
    }

    fn bill(
        prices: &[u32; RATES],
        imports: &[Energy; RATES],
        rest: &mut u32,
        cents: &mut u64,
    ) -> u32 {
        pillar_number(harbour::bill(prices, imports, rest, cents))
    }
}

impl<const FAULT: u8> Side for Plain<FAULT> {
    fn allot(limit: i32, berths: &mut [Berth]) -> u32 {
        let mut given: Vec<_> = berths.iter().map(plain_berth).collect();
        let answer = berths::allot_with::<FAULT>(limit, &mut given);
        for (berth, given) in berths.iter_mut().zip(given) {
            *berth = Berth {
                guarantee: given.guarantee,
                cap: given.cap,
                demand: given.demand,
                allotment: given.allotment,
            };
        }
        plain_number(answer)
    }

    fn energy_of_day(samples: &[i32], day: &mut Day) -> u32 {
        stored(energy::Day::of_with::<FAULT>(samples), day)
    }

    fn join(day: &mut Day, other: &Day) -> u32 {
        let joined = plain_day(day).joined_with::<FAULT>(plain_day(other));
        stored(joined, day)
    }

    fn bill(
        prices: &[u32; RATES],
        imports: &[Energy; RATES],
        rest: &mut u32,
        cents: &mut u64,
    ) -> u32 {
        let bill = tariff::bill_with::<FAULT>(prices, &imports.map(plain_energy), *rest);
        if let Ok(bill) = bill {
            (*rest, *cents) = (bill.rest, bill.cents);
        }
        plain_number(bill)
    }
}

fn plain_berth(berth: &Berth) -> berths::Berth {
    berths::Berth {
        guarantee: berth.guarantee,
        cap: berth.cap,
        demand: berth.demand,
        allotment: berth.allotment,
    }
}

fn plain_energy(energy: Energy) -> energy::Energy {
    energy::Energy {
        watt_hours: energy.watt_hours,
        watt_seconds: energy.watt_seconds,
    }
}

fn plain_day(day: &Day) -> energy::Day {
    energy::Day {
        import: plain_energy(day.import),
        export: plain_energy(day.export),
    }
}

fn stored(answer: Result<energy::Day, u8>, day: &mut Day) -> u32 {
    if let Ok(made) = answer {
        let energy = |energy: energy::Energy| Energy {
            watt_hours: energy.watt_hours,
            watt_seconds: energy.watt_seconds,
        };
        *day = Day {
            import: energy(made.import),
            export: energy(made.export),
        };
    }
    plain_number(answer)
}

fn plain_number<T>(answer: Result<T, u8>) -> u32 {
    answer.err().unwrap_or(0).into()
}

fn pillar_number(answer: pillar::Answer) -> u32 {
    answer.err().unwrap_or(0)
}
