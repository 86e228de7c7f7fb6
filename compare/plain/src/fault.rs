//! Deliberate blunders, to show that the comparison would notice them.
//!
//! A [`Machine`](crate::Machine) bears the number of its blunder as a constant
//! of its type. [`Meter`](crate::Meter) bears [`NONE`], and there the compiler
//! drops each of these branches.

mod request;
pub use request::*;
mod three_phase;
pub use three_phase::*;

pub const NONE: u8 = 0;
/// "Tripping at power equal to threshold."
pub const TRIPS_AT_THRESHOLD: u8 = 1;
/// A local disconnect (g) is not counted in Openings.
pub const FORGETS_LOCAL_OPENINGS: u8 = 2;
/// "A page that shows where a ring buffer begins."
pub const RING_LOG: u8 = 3;
/// "Remote reconnect on a Connected switch moving it to Ready."
pub const RECONNECT_OPENS: u8 = 4;
/// "Tripping again while Exceeded after a manual reconnect."
pub const TRIPS_WHILE_EXCEEDED: u8 = 5;
/// "Applying a filter when the register is read."
pub const FILTERS_ON_READ: u8 = 6;
/// Openings goes on from 0 after its last number.
pub const OPENINGS_WRAP: u8 = 7;
/// The clock goes on from 0 after its last second.
pub const CLOCK_WRAPS: u8 = 8;
/// Setting the limiter ends Exceeded.
pub const LIMITER_ENDS_EXCEEDED: u8 = 9;
/// A mode is cut to its low byte before it is judged.
pub const CUTS_MODE: u8 = 10;
/// A clear with mask 0 writes no line.
pub const SILENT_EMPTY_MASK: u8 = 11;
/// The reader takes any Exceeded byte other than 0 for yes.
pub const READS_ANY_EXCEEDED: u8 = 12;
/// Setting the limiter to what it is does nothing.
pub const IGNORES_SAME_LIMITER: u8 = 13;
/// A local reconnect (h) in mode 4 too.
pub const LOCAL_RECONNECT_IN_4: u8 = 14;
/// A call on a page judges the page before the kind.
pub const READS_BEFORE_KIND: u8 = 15;
/// A remote reconnect leaves Ready in modes 2 and 4 too, where A1 moves it.
pub const STAYS_READY: u8 = 16;
/// A remote reconnect closes from Ready in modes 1, 3, 5 and 6 too.
pub const CLOSES_IN_EVERY_MODE: u8 = 17;
/// Script 2 leaves Ready, though call 3 closes.
pub const SCRIPT_STAYS_READY: u8 = 18;
/// A remote reconnect that closes from Ready writes line 59.
pub const LOGS_59_FROM_READY: u8 = 19;
/// A remote disconnect from Connected answers c, from Ready b.
pub const EXCHANGES_B_AND_C: u8 = 20;
/// Accepting mode 0 answers a where it moves the switch.
pub const LETTER_FOR_MODE_0: u8 = 21;
/// A manual reconnect that moves nothing answers e.
pub const LETTER_WITHOUT_MOVE: u8 = 22;
/// A script does not hand on the letter of its call.
pub const SCRIPTS_WITHOUT_LETTER: u8 = 23;
/// A sample does not hand on g or h.
pub const SAMPLES_WITHOUT_LETTER: u8 = 24;
/// A remote reconnect that closes from Ready answers e, as the key does.
pub const CLOSES_AS_E: u8 = 25;
/// A manual reconnect leaves the limiter as it is, as before A5.
pub const NEVER_ARMS: u8 = 26;
/// Every accepted manual reconnect arms the limiter, moving or not.
pub const ARMS_WITHOUT_MOVE: u8 = 27;
/// A manual reconnect ends Exceeded and leaves Run.
pub const ARMS_KEEPING_RUN: u8 = 28;
/// A manual reconnect sets Run 0 and leaves Exceeded.
pub const ARMS_KEEPING_EXCEEDED: u8 = 29;
/// A manual reconnect arms the limiter only while Exceeded.
pub const ARMS_WHILE_EXCEEDED: u8 = 30;
/// A remote reconnect that closes from Ready arms the limiter too.
pub const REMOTE_RECONNECT_ARMS: u8 = 31;
/// Accepting mode 0 arms the limiter where it moves the switch.
pub const MODE_0_ARMS: u8 = 32;
/// Line 66 for an Exceeded that a manual reconnect ends.
pub const LOGS_66_WHEN_ARMED: u8 = 33;
/// Line 67, as of a limiter setting, for a manual reconnect that arms.
pub const LOGS_67_WHEN_ARMED: u8 = 34;
/// A manual reconnect that arms sets both durations to 1.
pub const ARMING_LOSES_DURATIONS: u8 = 35;
/// A manual reconnect that arms sets the threshold to 0.
pub const ARMING_LOSES_THRESHOLD: u8 = 36;
/// A profile ends when the clock has passed activation by its duration.
pub const ENDS_BY_CLOCK: u8 = 37;
/// A profile ends before its last sample is judged.
pub const ENDS_BEFORE_JUDGING: u8 = 38;
/// A profile starts after its first sample is judged.
pub const STARTS_AFTER_JUDGING: u8 = 39;
/// A profile starts once the clock is above activation, not at it.
pub const STARTS_PAST_ACTIVATION: u8 = 40;
/// The sample at which a profile starts takes two of its samples.
pub const GOVERNS_ONE_FEWER: u8 = 41;
/// The sample at which a profile starts takes none of its samples.
pub const GOVERNS_ONE_MORE: u8 = 42;
/// Line 67 and Run 0 where the threshold in force stays the same number.
pub const LOGS_67_WITHOUT_CHANGE: u8 = 43;
/// A change of the threshold in force leaves Run.
pub const CHANGE_KEEPS_RUN: u8 = 44;
/// A change of the threshold in force ends Exceeded.
pub const CHANGE_ENDS_EXCEEDED: u8 = 45;
/// A kind 17 in place of an active profile leaves Run and logs nothing.
pub const REPLACES_SILENTLY: u8 = 46;
/// A limiter setting ends an active profile.
pub const LIMITER_ENDS_PROFILE: u8 = 47;
/// New groups end the profile.
pub const GROUPS_END_PROFILE: u8 = 48;
/// Setting the clock to activation starts the profile.
pub const CLOCK_STARTS_PROFILE: u8 = 49;
/// Setting the clock back ends an active profile.
pub const CLOCK_ENDS_PROFILE: u8 = 50;
/// An id is cut to its 16 bits before it is looked up.
pub const CUTS_GROUP_ID: u8 = 51;
/// A count of ids is cut to its low byte before it is judged.
pub const CUTS_GROUP_COUNT: u8 = 52;
/// Refusal 16 comes before 15.
pub const EXCHANGES_15_AND_16: u8 = 53;
/// Ids past the count are kept.
pub const KEEPS_IDS_PAST_COUNT: u8 = 54;
/// The page's second area shows the threshold in force.
pub const SHOWS_THRESHOLD_IN_FORCE: u8 = 55;
/// The reader takes any samples left.
pub const READS_ANY_SAMPLES_LEFT: u8 = 56;
/// The reader takes numbers of a profile where there is none.
pub const READS_FIELDS_WITHOUT_PROFILE: u8 = 57;
/// A record is sound only if the profile's id is in the group.
pub const DEMANDS_MEMBERSHIP: u8 = 58;
/// How many bits of the alarm filter are one is kept, not of the register.
pub const COUNTS_FILTER: u8 = 59;
/// Only the alarms that stand and that the filter does not hide are counted.
pub const COUNTS_UNHIDDEN: u8 = 60;
/// An alarm bit that stands is counted again when it is raised again.
pub const COUNTS_RAISED_AGAIN: u8 = 61;
/// An alarm bit that the filter hides is counted, though it is not set.
pub const COUNTS_HIDDEN: u8 = 62;
/// An event raises its alarm bit and leaves the count.
pub const RAISES_WITHOUT_COUNT: u8 = 63;
/// A clear of alarms leaves the count.
pub const CLEARS_WITHOUT_COUNT: u8 = 64;
/// A clear of alarms sets the count 0, whatever stays.
pub const CLEARS_COUNT: u8 = 65;
/// A clear of alarms takes off every one of its mask, standing or not.
pub const COUNTS_CLEARED_MASK: u8 = 66;
/// The reader takes any count of alarms.
pub const READS_ANY_ALARM_COUNT: u8 = 67;
/// The reader takes any count of alarms from 0 to 32.
pub const READS_ANY_ALARM_COUNT_TO_32: u8 = 68;
/// The lines of a table are judged before its length.
pub const JUDGES_LENGTH_LAST: u8 = 69;
/// A table of 65 lines is taken.
pub const TAKES_65_LINES: u8 = 70;
/// A table without a line is taken.
pub const TAKES_EMPTY_TABLE: u8 = 71;
/// A table is taken without the bytes past its last whole line.
pub const TAKES_CUT_LINE: u8 = 72;
/// Within a line of a table 19 comes before 18.
pub const EXCHANGES_18_AND_19: u8 = 73;
/// The last faulty line of a table decides.
pub const LAST_LINE_DECIDES: u8 = 74;
/// The lowest number among the faults of a table decides, whichever line has it.
pub const LOWEST_NUMBER_DECIDES: u8 = 75;
/// A table may list code 4, which call 8 logs.
pub const TAKES_CODE_4: u8 = 76;
/// A table may list code 69, which a local reconnect logs.
pub const TAKES_CODE_69: u8 = 77;
/// A table may list code 255, which call 14 logs.
pub const TAKES_CODE_255: u8 = 78;
/// A table may not list code 68.
pub const BARS_CODE_68: u8 = 79;
/// A table may not list code 0.
pub const BARS_CODE_0: u8 = 80;
/// A code of a table may be that of the line before.
pub const TAKES_EQUAL_CODE: u8 = 81;
/// A table may name log 0.
pub const TAKES_LOG_0: u8 = 82;
/// A table may name log 4.
pub const TAKES_LOG_4: u8 = 83;
/// A table may name bit 32.
pub const TAKES_BIT_32: u8 = 84;
/// A table may name bit 254.
pub const TAKES_BIT_254: u8 = 85;
/// A table may not name bit 31.
pub const BARS_BIT_31: u8 = 86;
/// Of the two bits of a table's line the alarm bit alone is judged.
pub const TAKES_ANY_ERROR_BIT: u8 = 87;
/// 255 in a table names bit 31, as a shift by 255 places would.
pub const RAISES_BIT_31_FOR_NONE: u8 = 88;
/// The alarm bit of a table's line is raised as its error bit, and the other way round.
pub const EXCHANGES_BITS: u8 = 89;
/// A code is cut to its low byte before it is looked up in an own table.
pub const CUTS_OWN_CODE: u8 = 90;
/// Call 9 takes the built-in codes beside those of an own table.
pub const ADDS_TO_BUILT_IN: u8 = 91;
/// A table that is not good is refused, and the built-in one does not serve.
pub const REFUSES_BAD_TABLE: u8 = 92;
/// A table that is not good serves as one without a line.
pub const BAD_TABLE_IS_EMPTY: u8 = 93;
/// The codes in the logs are judged by the built-in table under an own one.
pub const JUDGES_LOGS_BY_BUILT_IN: u8 = 94;
/// Log 3 may hold 68 under an own table that does not list it.
pub const HOLDS_68_ALWAYS: u8 = 95;
/// A log may hold the codes of another log of an own table.
pub const HOLDS_CODES_OF_OTHER_LOGS: u8 = 96;
/// Under an own table the codes that the logs hold besides are not good.
pub const OWN_TABLE_BARS_LOGS_CODES: u8 = 97;
/// Call 8 clears the error bit that the table gives event 6, not error bit 0.
pub const CLOCK_CLEARS_EVENT_BIT: u8 = 98;
