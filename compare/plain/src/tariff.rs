//! "The berth tariff" (02, A12): what four imports cost at four rates.

use crate::energy::{Energy, WATT_HOUR};
use crate::refusal;

#[cfg(feature = "faults")]
pub mod fault;
#[cfg(not(feature = "faults"))]
mod fault;

/// "Four rates"
pub const RATES: usize = 4;

/// "price above 1,000,000" is refused.
pub const HIGHEST_PRICE: u32 = 1_000_000;

/// The watt-seconds of a kilowatt-hour: "the rest, over 3,600,000".
pub const KILOWATT_HOUR: u32 = 3_600_000;

/// "whole watt-hours above 2^31 at a rate" are refused.
pub const MOST_BILLED: u64 = 1 << 31;

/// "The bill is the whole cents; the rest, over 3,600,000, is carried to the next
/// bill."
#[derive(Clone, Copy, Debug, Default, PartialEq, Eq)]
pub struct Bill {
    pub cents: u64,
    pub rest: u32,
}

/// "Four rates, each a price in cents per kilowatt-hour, are applied to four
/// imports in A11's form, one a rate", and the rest of the bill before: 28, 29 or 30.
pub fn bill(prices: &[u32; RATES], imports: &[Energy; RATES], rest: u32) -> Result<Bill, u8> {
    bill_with::<{ fault::NONE }>(prices, imports, rest)
}

/// The same, `FAULT` being a planted blunder.
pub fn bill_with<const FAULT: u8>(
    prices: &[u32; RATES],
    imports: &[Energy; RATES],
    rest: u32,
) -> Result<Bill, u8> {
    judge::<FAULT>(prices, imports, rest)?;
    let mut prices = *prices;
    if FAULT == fault::RATES_EXCHANGED {
        prices.swap(2, 3);
    }
    let rates = match FAULT {
        fault::LAST_RATE_LEFT_OUT => RATES - 1,
        _ => RATES,
    };
    let incoming = match FAULT {
        fault::REST_NOT_CARRIED => 0,
        _ => u128::from(rest),
    };
    let charges = prices.iter().zip(imports).take(rates);
    let charges = charges.map(|(&price, import)| charge::<FAULT>(price, import));
    let sum = incoming + charges.sum::<u128>();
    let sum = match FAULT {
        fault::SUM_WRAPS => u128::from(sum as u64),
        fault::ROUNDS => sum + u128::from(KILOWATT_HOUR / 2),
        _ => sum,
    };
    let whole = u128::from(KILOWATT_HOUR);
    Ok(Bill {
        cents: (sum / whole) as u64,
        rest: (sum % whole) as u32,
    })
}

/// Of one rate, over 3,600,000.
fn charge<const FAULT: u8>(price: u32, import: &Energy) -> u128 {
    let watt_seconds = match FAULT {
        fault::REMAINDERS_LEFT_OUT => 0,
        _ => u128::from(import.watt_seconds),
    };
    let energy = u128::from(import.watt_hours) * u128::from(WATT_HOUR) + watt_seconds;
    let charge = u128::from(price) * energy;
    match FAULT {
        fault::WHOLE_CENTS_BY_RATE => charge - charge % u128::from(KILOWATT_HOUR),
        _ => charge,
    }
}

/// 28, 29 and 30, "tested in that order".
fn judge<const FAULT: u8>(
    prices: &[u32; RATES],
    imports: &[Energy; RATES],
    rest: u32,
) -> Result<(), u8> {
    let judged_rates = match FAULT {
        fault::LAST_RATE_UNJUDGED => RATES - 1,
        _ => RATES,
    };
    let price = prices[..judged_rates].iter().any(|&price| match FAULT {
        fault::HIGHEST_PRICE_REFUSED => price >= HIGHEST_PRICE,
        fault::HIGHER_PRICE_TAKEN => price > HIGHEST_PRICE + 1,
        _ => price > HIGHEST_PRICE,
    });
    let rest = match FAULT {
        fault::WHOLE_REST_TAKEN => rest > KILOWATT_HOUR,
        _ => rest >= KILOWATT_HOUR,
    };
    let import = imports[..judged_rates].iter().any(|import| {
        let hours = match FAULT {
            fault::MOST_BILLED_REFUSED => import.watt_hours >= MOST_BILLED,
            fault::MORE_BILLED => import.watt_hours > MOST_BILLED + 1,
            _ => import.watt_hours > MOST_BILLED,
        };
        let seconds = match FAULT {
            fault::REMAINDER_3600_TAKEN => import.watt_seconds > WATT_HOUR,
            _ => import.watt_seconds >= WATT_HOUR,
        };
        hours || seconds
    });
    let [price, rest, import] = [
        (price, refusal::PRICE),
        (rest, refusal::REST),
        (import, refusal::IMPORT),
    ];
    let order = match FAULT {
        fault::REST_BEFORE_PRICE => [rest, price, import],
        fault::IMPORT_BEFORE_REST => [price, import, rest],
        _ => [price, rest, import],
    };
    match order.iter().find(|(holds, _)| *holds) {
        Some((_, refusal)) => Err(*refusal),
        None => Ok(()),
    }
}
