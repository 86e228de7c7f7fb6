//! Those of the three-phase meter (02, A13), from 120 on. It shares with the
//! one-phase meter the blunders in what it shares with it.

/// A local disconnect (g) in mode 0 too.
pub const LOCAL_DISCONNECT_IN_0: u8 = 120;
/// h is tried though a line remains exceeded.
pub const RECONNECTS_THOUGH_EXCEEDED: u8 = 121;
/// g is tried at each line that fires over, so that 64 comes between the 65s.
pub const TRIES_AT_EACH_LINE: u8 = 122;
/// The sum of the powers wraps at 32 bits.
pub const SUM_WRAPS: u8 = 123;
/// The sum of the powers is held at the ends of 32 bits.
pub const SUM_SATURATES: u8 = 124;
/// One Run serves all lines: that of the line judged last.
pub const SHARES_RUN: u8 = 125;
/// One Exceeded serves all lines: yes if one is.
pub const SHARES_EXCEEDED: u8 = 126;
/// A manual reconnect arms the first line alone.
pub const ARMS_FIRST_LINE: u8 = 127;
/// A manual reconnect arms the three phases and leaves the sum.
pub const ARMS_PHASES: u8 = 128;
/// A manual reconnect arms only the lines that are exceeded.
pub const ARMS_EXCEEDED_LINES: u8 = 129;
/// Firings are logged from the sum to L1.
pub const LOGS_IN_REVERSE: u8 = 130;
/// Several firings in one sample write one line.
pub const LOGS_FIRST_FIRING: u8 = 131;
/// The firings over are logged before the firings under.
pub const LOGS_OVER_FIRST: u8 = 132;
/// The move is logged before the firings.
pub const LOGS_MOVE_FIRST: u8 = 133;
/// Call 7 logs 67 for each line.
pub const LOGS_67_FOR_EACH_LINE: u8 = 134;
/// The thresholds of L2 and L3 are exchanged.
pub const EXCHANGES_THRESHOLDS: u8 = 135;
/// The first threshold given is that of the sum.
pub const SUM_THRESHOLD_FIRST: u8 = 136;
/// The powers of L1 and L3 are exchanged.
pub const EXCHANGES_POWERS: u8 = 137;
/// Call 7 leaves every Run.
pub const LIMITER_KEEPS_RUNS: u8 = 138;
/// Call 7 sets Run 0 only on lines whose threshold changes.
pub const LIMITER_KEEPS_SAME_LINES: u8 = 139;
/// Over and Under are exchanged on the page.
pub const UNDER_BEFORE_OVER: u8 = 140;
/// The limiter area has the lines before Over and Under.
pub const LINES_BEFORE_DURATIONS: u8 = 141;
/// The limiter area has all thresholds, then all Exceeded, then all Runs.
pub const LIMITER_BY_FIELD: u8 = 142;
/// The limiter area has Run before Exceeded.
pub const RUN_BEFORE_EXCEEDED: u8 = 143;
/// The sum is not watched.
pub const IGNORES_SUM: u8 = 144;
/// The sum is watched without its sign.
pub const ABSOLUTE_SUM: u8 = 145;
/// Export takes nothing off the sum.
pub const SUM_OF_IMPORT: u8 = 146;
/// The sum of L1 and L2 is watched.
pub const SUM_OF_TWO: u8 = 147;
/// Kind 16 is accepted and does nothing.
pub const TAKES_KIND_16: u8 = 148;
/// Kind 17 is accepted and does nothing.
pub const TAKES_KIND_17: u8 = 149;
/// A negative threshold of the sum is taken.
pub const TAKES_ANY_SUM_THRESHOLD: u8 = 150;
/// The threshold of L1 alone is judged.
pub const JUDGES_FIRST_THRESHOLD: u8 = 151;
/// 5 comes before 4.
pub const DURATIONS_BEFORE_THRESHOLDS: u8 = 152;
/// h is tried before g, where both kinds of firing meet.
pub const RECONNECTS_FIRST: u8 = 153;
/// g answers no letter.
pub const DISCONNECTS_WITHOUT_LETTER: u8 = 154;
/// h is tried at every sample after which no line is exceeded.
pub const RECONNECTS_WITHOUT_FIRING: u8 = 155;
/// h is held back only while the sum is exceeded.
pub const SUM_HOLDS_BACK: u8 = 156;
/// h is held back only while a phase is exceeded.
pub const PHASES_HOLD_BACK: u8 = 157;
/// g is tried only if no line was exceeded before the sample.
pub const DISCONNECTS_AT_FIRST_EXCEEDED: u8 = 158;
/// A firing of the sum decides nothing.
pub const SUM_DECIDES_NOTHING: u8 = 159;
/// The lines behind the first that fires are not judged in that sample.
pub const STOPS_AT_FIRST_FIRING: u8 = 160;
/// A sum equal to its threshold is over.
pub const SUM_TRIPS_AT_THRESHOLD: u8 = 161;
/// The sum takes Under for Over and Over for Under.
pub const SUM_EXCHANGES_DURATIONS: u8 = 162;
/// The clock gains 1 for each power.
pub const CLOCK_COUNTS_POWERS: u8 = 163;
/// The reader takes any Exceeded byte of the sum.
pub const READS_ANY_SUM_EXCEEDED: u8 = 164;
/// Run of L1 alone is judged.
pub const JUDGES_FIRST_RUN: u8 = 165;
/// Run is below Over, whether the line is exceeded or not.
pub const JUDGES_RUN_BY_OVER: u8 = 166;
/// A list ends at the first call that is refused.
pub const LIST_ENDS_AT_REFUSAL: u8 = 167;
/// A later record of kind 0 begins a fresh meter.
pub const LIST_BEGINS_ANEW: u8 = 168;
/// A list's cut record is found before its fresh is judged.
pub const CUT_BEFORE_FRESH: u8 = 169;
/// A refused call 7 sets each Run 0.
pub const REFUSED_LIMITER_ENDS_RUNS: u8 = 170;
