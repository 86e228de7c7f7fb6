//! The refusals by number: 1 to 13 are those of document 01's "Where a call
//! stops", 14 to 16 those of request A3, 17 to 19 those of request A8, 20 and 21
//! those of request A9 (22 to 30, of A10 to A12, stand with their functions);
//! 100 to 102 are the C interface's (`pillar.h`), which numbers
//! the faults of a list.

/// "mode above 6" (fresh, call 6)
pub const MODE: u8 = 1;
/// "mode not in the switch table for that request" (calls 2–5, also by script)
pub const MODE_RULE: u8 = 2;
/// Script "not 1 or 2"
pub const SCRIPT: u8 = 3;
/// "threshold negative" (fresh, call 7)
pub const THRESHOLD: u8 = 4;
/// "Over or Under out of range" (fresh, call 7)
pub const DURATION: u8 = 5;
/// "code not listed" (call 9)
pub const CODE: u8 = 6;
/// "log not 1–3" (call 14)
pub const LOG: u8 = 7;
/// Buffer under the page's length (writer)
pub const BUFFER: u8 = 8;
/// Length not the page's (reader)
pub const LENGTH: u8 = 9;
/// "a pair differs" (reader)
pub const PAIR: u8 = 10;
/// "the record would not be sound, or Exceeded above 1" (reader)
pub const UNSOUND_PAGE: u8 = 11;
/// "not sound; every call and the writer"
pub const UNSOUND: u8 = 12;
/// Kind "not 1–17" (02, A3)
pub const KIND: u8 = 13;
/// "more than eight ids (kind 16)" (02, A3)
pub const GROUPS: u8 = 14;
/// "id not in the group (kind 17)" (02, A3)
pub const GROUP_ID: u8 = 15;
/// "duration outside 1 to 604,800, or threshold negative, after 15" (02, A3)
pub const PROFILE: u8 = 16;
/// Table: "length not a multiple of 4, or not 1 to 64 lines" (02, A8)
pub const TABLE_LENGTH: u8 = 17;
/// Table: "code barred or not above the line before" (02, A8)
pub const TABLE_CODE: u8 = 18;
/// Table: "log not 1–3 or a bit of 32 to 254" (02, A8)
pub const TABLE_LINE: u8 = 19;
/// "bytes that are no whole such request" (02, A9)
pub const REQUEST: u8 = 20;
/// "answer buffer under 32 bytes" (02, A9)
pub const ANSWER_BUFFER: u8 = 21;

/// `PILLAR_REFUSED_LIST_EMPTY`: a list without a byte
pub const EMPTY_LIST: u8 = 100;
/// `PILLAR_REFUSED_LIST_BAD`: "The first has kind 0 and is fresh, else one line
/// `bad` ends it"
pub const BAD_LIST: u8 = 101;
/// `PILLAR_REFUSED_LIST_SHORT`: "a cut record, the first too, writes `short` and
/// ends"
pub const SHORT_LIST: u8 = 102;

/// "no berth or over sixteen" (02, A10)
pub const BERTH_COUNT: u8 = 22;
/// "a negative limit, guarantee or cap, or a guarantee above its cap" (02, A10)
pub const BERTH_POWER: u8 = 23;
/// "guarantees summing above the limit" (02, A10)
pub const GUARANTEE_SUM: u8 = 24;
/// "too many samples" (02, A11)
pub const SAMPLE_COUNT: u8 = 25;
/// "a remainder of 3,600 or more" (02, A11)
pub const REMAINDER: u8 = 26;
/// "a join whose whole watt-hours are above 2^53" (02, A11)
pub const JOINED_ENERGY: u8 = 27;
/// "price above 1,000,000" (02, A12)
pub const PRICE: u8 = 28;
/// "incoming rest of 3,600,000 or more" (02, A12)
pub const REST: u8 = 29;
/// "whole watt-hours above 2^31 at a rate or a remainder of 3,600 or more" (02, A12)
pub const IMPORT: u8 = 30;
