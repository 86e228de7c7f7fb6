//! Plain behind the proved core's functions, so that the programs can run
//! where `libpillar.a` isn't built. It proves nothing about the core.

use super::{Berth, Day, Energy, RATES};
use plain::{berths, energy, tariff};

pub fn allot(limit: i32, berths: &mut [Berth]) -> u32 {
    let mut given: Vec<_> = berths.iter().map(plain_berth).collect();
    let number = number(berths::allot(limit, &mut given));
    for (berth, given) in berths.iter_mut().zip(&given) {
        berth.allotment = given.allotment;
    }
    number
}

pub fn energy_of_day(samples: &[i32], day: &mut Day) -> u32 {
    store(energy::Day::of(samples), day)
}

pub fn join(day: &mut Day, other: &Day) -> u32 {
    store(plain_day(day).joined(plain_day(other)), day)
}

pub fn bill(
    prices: &[u32; RATES],
    imports: &[Energy; RATES],
    rest: &mut u32,
    cents: &mut u64,
) -> u32 {
    let bill = tariff::bill(prices, &imports.map(plain_energy), *rest);
    if let Ok(bill) = bill {
        (*rest, *cents) = (bill.rest, bill.cents);
    }
    number(bill)
}

fn plain_berth(berth: &Berth) -> berths::Berth {
    berths::Berth {
        guarantee: berth.guarantee,
        cap: berth.cap,
        demand: berth.demand,
        allotment: berth.allotment,
    }
}

fn plain_energy(energy: Energy) -> energy::Energy {
    energy::Energy {
        watt_hours: energy.watt_hours,
        watt_seconds: energy.watt_seconds,
    }
}

fn plain_day(day: &Day) -> energy::Day {
    energy::Day {
        import: plain_energy(day.import),
        export: plain_energy(day.export),
    }
}

fn store(answer: Result<energy::Day, u8>, day: &mut Day) -> u32 {
    if let Ok(plain) = answer {
        let energy = |energy: energy::Energy| Energy {
            watt_hours: energy.watt_hours,
            watt_seconds: energy.watt_seconds,
        };
        *day = Day {
            import: energy(plain.import),
            export: energy(plain.export),
        };
    }
    number(answer)
}

fn number<T>(answer: Result<T, u8>) -> u32 {
    answer.err().unwrap_or(0).into()
}
