//! Safe functions for the harbour's office: a column's berths, the energy of a
//! day, the tariff (document 02, A10 to A12). They stand apart from the meter.
//! What is lent stays as it was where a function refuses.

use crate::{Answer, answer};

#[cfg(not(feature = "stand-in"))]
mod linked;
#[cfg(feature = "stand-in")]
mod stand_in;

#[cfg(not(feature = "stand-in"))]
use linked as core;
#[cfg(feature = "stand-in")]
use stand_in as core;

/// The rates of a tariff, `PILLAR_RATES`.
pub const RATES: usize = 4;

/// A berth of a column, `struct column_berth`: in watts.
#[repr(C)]
#[derive(Clone, Copy, Debug, Default, PartialEq, Eq)]
pub struct Berth {
    pub guarantee: i32,
    pub cap: i32,
    pub demand: i32,
    pub allotment: i32,
}

/// Energy of one direction: watt-hours, and a remainder of watt-seconds.
#[repr(C)]
#[derive(Clone, Copy, Debug, Default, PartialEq, Eq)]
pub struct Energy {
    pub watt_hours: u64,
    pub watt_seconds: u64,
}

/// The energy of a day, or of several that are joined.
#[repr(C)]
#[derive(Clone, Copy, Debug, Default, PartialEq, Eq)]
pub struct Day {
    pub import: Energy,
    pub export: Energy,
}

/// Allots what the column can carry, `limit` in watts, to its berths: 22, 23 or
/// 24. Only allotments change.
pub fn allot(limit: i32, berths: &mut [Berth]) -> Answer {
    answer(core::allot(limit, berths))
}

/// The energy of samples of one second each, in watts, export being negative: 25.
pub fn energy_of_day(samples: &[i32], day: &mut Day) -> Answer {
    answer(core::energy_of_day(samples, day))
}

/// Joins `other` to `day`, which then has the energy of both: 26 or 27.
pub fn join(day: &mut Day, other: &Day) -> Answer {
    answer(core::join(day, other))
}

/// The whole cents that an import at each rate costs, at prices in cents per
/// kilowatt-hour: 28, 29 or 30. `rest` is that of the bill before, over
/// 3,600,000, and then the one for the next bill.
pub fn bill(
    prices: &[u32; RATES],
    imports: &[Energy; RATES],
    rest: &mut u32,
    cents: &mut u64,
) -> Answer {
    answer(core::bill(prices, imports, rest, cents))
}

#[cfg(test)]
mod tests {
    use super::*;
    use std::mem::offset_of;

    /// The fields lie as the C interface has them.
    #[test]
    fn records_lie_as_in_c() {
        assert_eq!(size_of::<Berth>(), 16);
        assert_eq!(offset_of!(Berth, guarantee), 0);
        assert_eq!(offset_of!(Berth, cap), 4);
        assert_eq!(offset_of!(Berth, demand), 8);
        assert_eq!(offset_of!(Berth, allotment), 12);
        assert_eq!(size_of::<Day>(), 32);
        assert_eq!(offset_of!(Day, import.watt_hours), 0);
        assert_eq!(offset_of!(Day, import.watt_seconds), 8);
        assert_eq!(offset_of!(Day, export.watt_hours), 16);
        assert_eq!(offset_of!(Day, export.watt_seconds), 24);
        assert_eq!(size_of::<[Energy; RATES]>(), 64);
    }

    /// A refusal hands its number on and leaves what was lent.
    #[test]
    fn refusals_leave_what_was_lent() {
        let mut berths = [Berth {
            guarantee: 6,
            cap: 5,
            demand: 4,
            allotment: 3,
        }];
        let before = berths;
        assert_eq!(allot(100, &mut []), Err(22));
        assert_eq!(allot(100, &mut berths), Err(23));
        assert_eq!(berths, before);

        let mut day = Day::default();
        day.export.watt_seconds = 3600;
        let before = day;
        assert_eq!(energy_of_day(&[1; 86_401], &mut day), Err(25));
        assert_eq!(join(&mut day, &Day::default()), Err(26));
        assert_eq!(day, before);

        let (mut rest, mut cents) = (3_600_000, 77);
        let imports = [Energy::default(); RATES];
        let answer = bill(&[0; RATES], &imports, &mut rest, &mut cents);
        assert_eq!((answer, rest, cents), (Err(29), 3_600_000, 77));
    }
}
