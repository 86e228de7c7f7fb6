//! The proved core's functions, linked as `libpillar.a`.

use super::{Berth, Day, Energy, RATES};

mod c {
    use super::super::Berth;

    unsafe extern "C" {
        pub fn column_allot(limit: i32, berths: *mut Berth, count: usize) -> u32;

        pub fn energy_of_day(samples: *const i32, count: usize, day: *mut u64) -> u32;

        pub fn energy_join(day: *mut u64, other: *const u64) -> u32;

        pub fn tariff_bill(
            prices: *const u32,
            imports: *const u64,
            rest: *mut u32,
            cents: *mut u64,
        ) -> u32;
    }
}

pub fn allot(limit: i32, berths: &mut [Berth]) -> u32 {
    let count = berths.len();
    // SAFETY: pointer and count are those of one live, exclusive slice, whose
    // records lie as `struct column_berth`.
    unsafe { c::column_allot(limit, berths.as_mut_ptr(), count) }
}

pub fn energy_of_day(samples: &[i32], day: &mut Day) -> u32 {
    let day = std::ptr::from_mut(day).cast();
    // SAFETY: pointer and count are those of one live slice, which is read only;
    // the day is live, exclusive and laid out as four numbers.
    unsafe { c::energy_of_day(samples.as_ptr(), samples.len(), day) }
}

pub fn join(day: &mut Day, other: &Day) -> u32 {
    let day = std::ptr::from_mut(day).cast();
    let other = std::ptr::from_ref(other).cast();
    // SAFETY: both are live and laid out as four numbers; the first is exclusive,
    // so the two don't overlap.
    unsafe { c::energy_join(day, other) }
}

pub fn bill(
    prices: &[u32; RATES],
    imports: &[Energy; RATES],
    rest: &mut u32,
    cents: &mut u64,
) -> u32 {
    // SAFETY: the prices are four numbers, the imports are laid out as eight; rest
    // and cents are live, exclusive numbers of their own.
    unsafe { c::tariff_bill(prices.as_ptr(), imports.as_ptr().cast(), rest, cents) }
}
