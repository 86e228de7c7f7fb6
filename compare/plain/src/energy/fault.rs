//! Deliberate blunders, to show that the comparison would notice them.

pub const NONE: u8 = 0;
/// The lowest power counts nothing.
pub const LOWEST_LOST: u8 = 101;
/// The lowest power counts one watt less.
pub const LOWEST_CUT: u8 = 102;
/// Export is taken off import.
pub const DIRECTIONS_CANCEL: u8 = 103;
/// Export is given as import.
pub const DIRECTIONS_EXCHANGED: u8 = 104;
/// 86,401 samples are taken.
pub const TAKES_ONE_SAMPLE_MORE: u8 = 105;
/// 86,400 samples are refused.
pub const TAKES_ONE_SAMPLE_FEWER: u8 = 106;
/// A join drops the watt-hour that the remainders make.
pub const CARRY_DROPPED: u8 = 107;
/// 27 goes by the watt-hours without that of the remainders.
pub const CARRY_NOT_JUDGED: u8 = 108;
/// A remainder of 3,600 is not 26.
pub const REMAINDER_3600_TAKEN: u8 = 109;
/// The first day's remainders are not judged.
pub const OWN_REMAINDERS_TAKEN: u8 = 110;
/// The second day's remainders are not judged.
pub const OTHER_REMAINDERS_TAKEN: u8 = 111;
/// The remainders of export are not judged.
pub const EXPORT_REMAINDERS_TAKEN: u8 = 112;
/// Joined export is not judged.
pub const ANY_JOINED_EXPORT: u8 = 113;
/// Joined import is not judged.
pub const ANY_JOINED_IMPORT: u8 = 114;
/// 2^53 watt-hours are 27.
pub const MOST_JOINED_REFUSED: u8 = 115;
/// 27 comes before 26.
pub const JOINED_BEFORE_REMAINDER: u8 = 116;
/// The joined watt-hours go on from 0 after 2^64 - 1.
pub const HOURS_WRAP: u8 = 117;
