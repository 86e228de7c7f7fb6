//! Deliberate blunders, to show that the comparison would notice them.

pub const NONE: u8 = 0;
/// The incoming rest is left out.
pub const REST_NOT_CARRIED: u8 = 201;
/// 29 comes before 28.
pub const REST_BEFORE_PRICE: u8 = 202;
/// 30 comes before 29.
pub const IMPORT_BEFORE_REST: u8 = 203;
/// The fourth rate is not charged.
pub const LAST_RATE_LEFT_OUT: u8 = 204;
/// The fourth rate is not judged.
pub const LAST_RATE_UNJUDGED: u8 = 205;
/// The third and the fourth price change places.
pub const RATES_EXCHANGED: u8 = 206;
/// The sum goes on from 0 after 2^64 - 1.
pub const SUM_WRAPS: u8 = 207;
/// A bill is rounded to the nearest cent.
pub const ROUNDS: u8 = 208;
/// Each rate is cut to its whole cents.
pub const WHOLE_CENTS_BY_RATE: u8 = 209;
/// The watt-seconds are not charged.
pub const REMAINDERS_LEFT_OUT: u8 = 210;
/// A price of 1,000,000 is 28.
pub const HIGHEST_PRICE_REFUSED: u8 = 211;
/// A price of 1,000,001 is not 28.
pub const HIGHER_PRICE_TAKEN: u8 = 212;
/// A rest of 3,600,000 is not 29.
pub const WHOLE_REST_TAKEN: u8 = 213;
/// 2^31 watt-hours are 30.
pub const MOST_BILLED_REFUSED: u8 = 214;
/// 2^31 + 1 watt-hours are not 30.
pub const MORE_BILLED: u8 = 215;
/// A remainder of 3,600 is not 30.
pub const REMAINDER_3600_TAKEN: u8 = 216;
