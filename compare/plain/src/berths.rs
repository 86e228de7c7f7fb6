//! "One column, sixteen berths" (02, A10): what a column can carry, shared among
//! its berths.

use crate::refusal;

#[cfg(feature = "faults")]
pub mod fault;
#[cfg(not(feature = "faults"))]
mod fault;

/// "no berth or over sixteen" is refused.
pub const BERTHS: usize = 16;

/// "guarantee, cap, demand and allotment, signed 32 bits each": in watts.
#[derive(Clone, Copy, Debug, Default, PartialEq, Eq)]
pub struct Berth {
    pub guarantee: i32,
    pub cap: i32,
    pub demand: i32,
    pub allotment: i32,
}

/// "A list of berth records, lent and filled in place": 22, 23 or 24. "only
/// allotments change", and on a refusal not even they.
pub fn allot(limit: i32, berths: &mut [Berth]) -> Result<(), u8> {
    allot_with::<{ fault::NONE }>(limit, berths)
}

/// The same, `FAULT` being a planted blunder.
pub fn allot_with<const FAULT: u8>(limit: i32, berths: &mut [Berth]) -> Result<(), u8> {
    if let Err(refusal) = judge::<FAULT>(limit, berths) {
        if FAULT == fault::REFUSAL_CLEARS {
            berths.iter_mut().for_each(|berth| berth.allotment = 0);
        }
        return Err(refusal);
    }
    let held_back = |berth: &Berth| match FAULT {
        fault::HOLDS_GUARANTEES_BACK => i64::from(berth.guarantee),
        _ => first_part::<FAULT>(berth),
    };
    let mut left = i64::from(limit) - berths.iter().map(held_back).sum::<i64>();
    let fill = |berth: &mut Berth| {
        let first = first_part::<FAULT>(berth);
        let further = (wanted::<FAULT>(berth) - first).min(left);
        left -= further;
        berth.allotment = (first + further) as i32;
    };
    match FAULT {
        fault::ORDER_REVERSED => berths.iter_mut().rev().for_each(fill),
        _ => berths.iter_mut().for_each(fill),
    }
    Ok(())
}

/// 22, 23 and 24, "tested in that order".
fn judge<const FAULT: u8>(limit: i32, berths: &[Berth]) -> Result<(), u8> {
    let most = BERTHS + usize::from(FAULT == fault::TAKES_SEVENTEEN);
    if berths.is_empty() && FAULT != fault::TAKES_NONE || berths.len() > most {
        return Err(refusal::BERTH_COUNT);
    }
    let judged = match FAULT {
        fault::FIRST_BERTH_JUDGED => &berths[..1],
        fault::LAST_BERTH_UNJUDGED => &berths[..berths.len() - 1],
        _ => berths,
    };
    let wrong = (limit < 0 && FAULT != fault::ANY_LIMIT) || judged.iter().any(wrong::<FAULT>);
    let summed = sum_above::<FAULT>(limit, berths);
    if FAULT == fault::SUM_BEFORE_RANGES && summed {
        return Err(refusal::GUARANTEE_SUM);
    }
    if wrong {
        return Err(refusal::BERTH_POWER);
    }
    if summed {
        return Err(refusal::GUARANTEE_SUM);
    }
    Ok(())
}

/// "a negative limit, guarantee or cap, or a guarantee above its cap"
fn wrong<const FAULT: u8>(berth: &Berth) -> bool {
    let negative = berth.guarantee < 0 && FAULT != fault::ANY_GUARANTEE || berth.cap < 0;
    negative || berth.guarantee > berth.cap && FAULT != fault::GUARANTEE_ABOVE_CAP
}

/// "guarantees summing above the limit"
fn sum_above<const FAULT: u8>(limit: i32, berths: &[Berth]) -> bool {
    let guarantees = berths.iter().map(|berth| i64::from(berth.guarantee));
    let sum: i64 = guarantees.sum();
    match FAULT {
        fault::EQUALITY_REFUSED => sum >= i64::from(limit),
        fault::SUM_IN_32_BITS => sum as i32 > limit,
        _ => sum > i64::from(limit),
    }
}

/// "Each berth first gets the smaller of demand and guarantee"
fn first_part<const FAULT: u8>(berth: &Berth) -> i64 {
    match FAULT {
        fault::FIRST_PART_DROPPED => 0,
        _ => demand::<FAULT>(berth).min(i64::from(berth.guarantee)),
    }
}

/// "up to the smaller of demand and cap"
fn wanted<const FAULT: u8>(berth: &Berth) -> i64 {
    let cap = i64::from(berth.cap);
    match FAULT {
        fault::CAP_BEYOND_FIRST_PART => {
            demand::<FAULT>(berth).min(first_part::<FAULT>(berth) + cap)
        }
        fault::DEMAND_PASSED => cap,
        _ => demand::<FAULT>(berth).min(cap),
    }
}

/// "Negative demand counts as zero."
fn demand<const FAULT: u8>(berth: &Berth) -> i64 {
    let demand = i64::from(berth.demand);
    match FAULT {
        fault::NEGATIVE_DEMAND => demand,
        _ => demand.max(0),
    }
}
