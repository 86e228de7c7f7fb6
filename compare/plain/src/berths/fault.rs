//! Deliberate blunders, to show that the comparison would notice them.

pub const NONE: u8 = 0;
/// Nothing is set aside: what there is goes in list order.
pub const FIRST_PART_DROPPED: u8 = 1;
/// The cap bounds only what a berth gets beyond its first part.
pub const CAP_BEYOND_FIRST_PART: u8 = 2;
/// What is left goes from the last berth to the first.
pub const ORDER_REVERSED: u8 = 3;
/// A negative demand is allotted.
pub const NEGATIVE_DEMAND: u8 = 4;
/// A negative limit is not 23.
pub const ANY_LIMIT: u8 = 5;
/// Guarantees that sum to the limit are 24.
pub const EQUALITY_REFUSED: u8 = 6;
/// 24 comes before 23.
pub const SUM_BEFORE_RANGES: u8 = 7;
/// Seventeen berths are taken.
pub const TAKES_SEVENTEEN: u8 = 8;
/// A list without a berth is taken.
pub const TAKES_NONE: u8 = 9;
/// A negative guarantee is not 23.
pub const ANY_GUARANTEE: u8 = 10;
/// A guarantee above its cap is not 23.
pub const GUARANTEE_ABOVE_CAP: u8 = 11;
/// Only the first berth is judged for 23.
pub const FIRST_BERTH_JUDGED: u8 = 12;
/// The last berth is not judged for 23.
pub const LAST_BERTH_UNJUDGED: u8 = 13;
/// The guarantees are summed in 32 bits.
pub const SUM_IN_32_BITS: u8 = 14;
/// A guarantee that is not demanded stays unused.
pub const HOLDS_GUARANTEES_BACK: u8 = 15;
/// A berth gets its cap where it demands less.
pub const DEMAND_PASSED: u8 = 16;
/// A refusal sets the allotments 0.
pub const REFUSAL_CLEARS: u8 = 17;
