//! The same test against plain with a blunder: it must find each one.

use crate::counts::Counts;
use crate::run::{Found, Plan, run};
use plain::fault;

type Run = fn(&Plan) -> Result<Counts, Box<Found>>;

pub const PLANTED: [(&str, Run); 98] = [
    (
        "trips at power equal to threshold",
        run::<{ fault::TRIPS_AT_THRESHOLD }>,
    ),
    (
        "forgets to count openings from g",
        run::<{ fault::FORGETS_LOCAL_OPENINGS }>,
    ),
    (
        "shows where a ring buffer begins",
        run::<{ fault::RING_LOG }>,
    ),
    (
        "moves to Ready on a remote reconnect while Connected",
        run::<{ fault::RECONNECT_OPENS }>,
    ),
    (
        "trips again while Exceeded",
        run::<{ fault::TRIPS_WHILE_EXCEEDED }>,
    ),
    (
        "applies a filter when the register is read",
        run::<{ fault::FILTERS_ON_READ }>,
    ),
    (
        "lets openings go on from 0",
        run::<{ fault::OPENINGS_WRAP }>,
    ),
    ("lets the clock go on from 0", run::<{ fault::CLOCK_WRAPS }>),
    (
        "ends Exceeded with a limiter setting",
        run::<{ fault::LIMITER_ENDS_EXCEEDED }>,
    ),
    ("cuts a mode to its low byte", run::<{ fault::CUTS_MODE }>),
    (
        "writes no line for a clear with mask 0",
        run::<{ fault::SILENT_EMPTY_MASK }>,
    ),
    (
        "reads any Exceeded byte",
        run::<{ fault::READS_ANY_EXCEEDED }>,
    ),
    (
        "ignores a limiter setting that changes nothing",
        run::<{ fault::IGNORES_SAME_LIMITER }>,
    ),
    (
        "reconnects locally in mode 4",
        run::<{ fault::LOCAL_RECONNECT_IN_4 }>,
    ),
    (
        "judges a page before the kind of the call on it",
        run::<{ fault::READS_BEFORE_KIND }>,
    ),
    (
        "stays Ready on a remote reconnect in modes 2 and 4",
        run::<{ fault::STAYS_READY }>,
    ),
    (
        "closes from Ready on a remote reconnect in every mode",
        run::<{ fault::CLOSES_IN_EVERY_MODE }>,
    ),
    (
        "closes from Ready by call 3 and not by script 2",
        run::<{ fault::SCRIPT_STAYS_READY }>,
    ),
    (
        "logs 59 where a remote reconnect closes from Ready",
        run::<{ fault::LOGS_59_FROM_READY }>,
    ),
    (
        "exchanges the letters b and c",
        run::<{ fault::EXCHANGES_B_AND_C }>,
    ),
    (
        "answers a letter for accepting mode 0",
        run::<{ fault::LETTER_FOR_MODE_0 }>,
    ),
    (
        "answers e for a manual reconnect that moves nothing",
        run::<{ fault::LETTER_WITHOUT_MOVE }>,
    ),
    (
        "hands on no letter from a script",
        run::<{ fault::SCRIPTS_WITHOUT_LETTER }>,
    ),
    (
        "hands on no letter from a sample",
        run::<{ fault::SAMPLES_WITHOUT_LETTER }>,
    ),
    (
        "answers e where a remote reconnect closes from Ready",
        run::<{ fault::CLOSES_AS_E }>,
    ),
    (
        "leaves the limiter at a manual reconnect",
        run::<{ fault::NEVER_ARMS }>,
    ),
    (
        "arms the limiter at a manual reconnect that moves nothing",
        run::<{ fault::ARMS_WITHOUT_MOVE }>,
    ),
    (
        "ends Exceeded at a manual reconnect and leaves Run",
        run::<{ fault::ARMS_KEEPING_RUN }>,
    ),
    (
        "sets Run 0 at a manual reconnect and leaves Exceeded",
        run::<{ fault::ARMS_KEEPING_EXCEEDED }>,
    ),
    (
        "leaves Run at a manual reconnect where not Exceeded",
        run::<{ fault::ARMS_WHILE_EXCEEDED }>,
    ),
    (
        "arms the limiter at a remote reconnect from Ready",
        run::<{ fault::REMOTE_RECONNECT_ARMS }>,
    ),
    (
        "arms the limiter where mode 0 closes",
        run::<{ fault::MODE_0_ARMS }>,
    ),
    (
        "logs 66 where a manual reconnect ends Exceeded",
        run::<{ fault::LOGS_66_WHEN_ARMED }>,
    ),
    (
        "logs 67 where a manual reconnect arms the limiter",
        run::<{ fault::LOGS_67_WHEN_ARMED }>,
    ),
    (
        "loses Over and Under where a manual reconnect arms the limiter",
        run::<{ fault::ARMING_LOSES_DURATIONS }>,
    ),
    (
        "loses the threshold where a manual reconnect arms the limiter",
        run::<{ fault::ARMING_LOSES_THRESHOLD }>,
    ),
    (
        "ends a profile by the clock",
        run::<{ fault::ENDS_BY_CLOCK }>,
    ),
    (
        "ends a profile before its last sample is judged",
        run::<{ fault::ENDS_BEFORE_JUDGING }>,
    ),
    (
        "starts a profile after its first sample is judged",
        run::<{ fault::STARTS_AFTER_JUDGING }>,
    ),
    (
        "starts a profile above activation, not at it",
        run::<{ fault::STARTS_PAST_ACTIVATION }>,
    ),
    (
        "governs one sample fewer",
        run::<{ fault::GOVERNS_ONE_FEWER }>,
    ),
    (
        "governs one sample more",
        run::<{ fault::GOVERNS_ONE_MORE }>,
    ),
    (
        "logs 67 where the threshold in force stays",
        run::<{ fault::LOGS_67_WITHOUT_CHANGE }>,
    ),
    (
        "leaves Run where the threshold in force changes",
        run::<{ fault::CHANGE_KEEPS_RUN }>,
    ),
    (
        "ends Exceeded where the threshold in force changes",
        run::<{ fault::CHANGE_ENDS_EXCEEDED }>,
    ),
    (
        "replaces an active profile without a line",
        run::<{ fault::REPLACES_SILENTLY }>,
    ),
    (
        "ends an active profile with a limiter setting",
        run::<{ fault::LIMITER_ENDS_PROFILE }>,
    ),
    (
        "ends a profile with new groups",
        run::<{ fault::GROUPS_END_PROFILE }>,
    ),
    (
        "starts a profile by setting the clock",
        run::<{ fault::CLOCK_STARTS_PROFILE }>,
    ),
    (
        "ends an active profile by setting the clock back",
        run::<{ fault::CLOCK_ENDS_PROFILE }>,
    ),
    (
        "cuts an id to 16 bits before it is looked up",
        run::<{ fault::CUTS_GROUP_ID }>,
    ),
    (
        "cuts a count of ids to its low byte",
        run::<{ fault::CUTS_GROUP_COUNT }>,
    ),
    (
        "answers 16 before 15",
        run::<{ fault::EXCHANGES_15_AND_16 }>,
    ),
    (
        "keeps ids past the count",
        run::<{ fault::KEEPS_IDS_PAST_COUNT }>,
    ),
    (
        "shows the threshold in force as the normal one",
        run::<{ fault::SHOWS_THRESHOLD_IN_FORCE }>,
    ),
    (
        "reads any samples left",
        run::<{ fault::READS_ANY_SAMPLES_LEFT }>,
    ),
    (
        "reads numbers of a profile where there is none",
        run::<{ fault::READS_FIELDS_WITHOUT_PROFILE }>,
    ),
    (
        "demands that a profile's id stays in the group",
        run::<{ fault::DEMANDS_MEMBERSHIP }>,
    ),
    (
        "keeps how many bits of the alarm filter are one",
        run::<{ fault::COUNTS_FILTER }>,
    ),
    (
        "counts the alarms that stand and are not hidden",
        run::<{ fault::COUNTS_UNHIDDEN }>,
    ),
    (
        "counts an alarm again that is raised again",
        run::<{ fault::COUNTS_RAISED_AGAIN }>,
    ),
    (
        "counts an alarm that is hidden",
        run::<{ fault::COUNTS_HIDDEN }>,
    ),
    (
        "raises an alarm without counting it",
        run::<{ fault::RAISES_WITHOUT_COUNT }>,
    ),
    (
        "clears alarms and leaves their count",
        run::<{ fault::CLEARS_WITHOUT_COUNT }>,
    ),
    (
        "sets the count of alarms 0 at every clear",
        run::<{ fault::CLEARS_COUNT }>,
    ),
    (
        "takes every one of a clear's mask off the count of alarms",
        run::<{ fault::COUNTS_CLEARED_MASK }>,
    ),
    (
        "reads any count of alarms",
        run::<{ fault::READS_ANY_ALARM_COUNT }>,
    ),
    (
        "reads any count of alarms from 0 to 32",
        run::<{ fault::READS_ANY_ALARM_COUNT_TO_32 }>,
    ),
    (
        "judges the lines of a table before its length",
        run::<{ fault::JUDGES_LENGTH_LAST }>,
    ),
    (
        "takes a table of 65 lines",
        run::<{ fault::TAKES_65_LINES }>,
    ),
    (
        "takes a table without a line",
        run::<{ fault::TAKES_EMPTY_TABLE }>,
    ),
    (
        "takes a table whose last line is cut",
        run::<{ fault::TAKES_CUT_LINE }>,
    ),
    (
        "answers 19 before 18 within a line of a table",
        run::<{ fault::EXCHANGES_18_AND_19 }>,
    ),
    (
        "lets the last faulty line of a table decide",
        run::<{ fault::LAST_LINE_DECIDES }>,
    ),
    (
        "lets the lowest number of a table's faults decide",
        run::<{ fault::LOWEST_NUMBER_DECIDES }>,
    ),
    ("takes code 4 in a table", run::<{ fault::TAKES_CODE_4 }>),
    ("takes code 69 in a table", run::<{ fault::TAKES_CODE_69 }>),
    (
        "takes code 255 in a table",
        run::<{ fault::TAKES_CODE_255 }>,
    ),
    ("refuses code 68 in a table", run::<{ fault::BARS_CODE_68 }>),
    ("refuses code 0 in a table", run::<{ fault::BARS_CODE_0 }>),
    (
        "takes an equal code in a table as rising",
        run::<{ fault::TAKES_EQUAL_CODE }>,
    ),
    ("takes log 0 in a table", run::<{ fault::TAKES_LOG_0 }>),
    ("takes log 4 in a table", run::<{ fault::TAKES_LOG_4 }>),
    ("takes bit 32 in a table", run::<{ fault::TAKES_BIT_32 }>),
    ("takes bit 254 in a table", run::<{ fault::TAKES_BIT_254 }>),
    ("refuses bit 31 in a table", run::<{ fault::BARS_BIT_31 }>),
    (
        "takes any error bit in a table",
        run::<{ fault::TAKES_ANY_ERROR_BIT }>,
    ),
    (
        "raises bit 31 where a table names none",
        run::<{ fault::RAISES_BIT_31_FOR_NONE }>,
    ),
    (
        "exchanges the alarm and the error bit of a table",
        run::<{ fault::EXCHANGES_BITS }>,
    ),
    (
        "cuts a code to its low byte before an own table is asked",
        run::<{ fault::CUTS_OWN_CODE }>,
    ),
    (
        "takes built-in events beside those of an own table",
        run::<{ fault::ADDS_TO_BUILT_IN }>,
    ),
    (
        "refuses what comes with a table that is not good",
        run::<{ fault::REFUSES_BAD_TABLE }>,
    ),
    (
        "has no events where a table is not good",
        run::<{ fault::BAD_TABLE_IS_EMPTY }>,
    ),
    (
        "judges log codes by the built-in table",
        run::<{ fault::JUDGES_LOGS_BY_BUILT_IN }>,
    ),
    (
        "lets log 3 hold 68 under every table",
        run::<{ fault::HOLDS_68_ALWAYS }>,
    ),
    (
        "lets a log hold the codes of the others",
        run::<{ fault::HOLDS_CODES_OF_OTHER_LOGS }>,
    ),
    (
        "refuses the logs' own codes under an own table",
        run::<{ fault::OWN_TABLE_BARS_LOGS_CODES }>,
    ),
    (
        "clears event 6's error bit by setting the clock",
        run::<{ fault::CLOCK_CLEARS_EVENT_BIT }>,
    ),
];
