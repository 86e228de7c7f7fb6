//! The same test against plain with a blunder: it must find each one.

use crate::counts::Counts;
use crate::options::Options;
use crate::run::{Found, run};
use plain::fault;

type Run = fn(&Options) -> Result<Counts, Box<Found>>;

pub const PLANTED: [(&str, Run); 34] = [
    (
        "clears the bits that are one in the value",
        run::<{ fault::CLEARS_ONES }>,
    ),
    (
        "exchanges errors and alarms",
        run::<{ fault::EXCHANGES_ERRORS_AND_ALARMS }>,
    ),
    (
        "exchanges Over and Under in call 7",
        run::<{ fault::EXCHANGES_OVER_AND_UNDER }>,
    ),
    (
        "reads the output on unless Disconnected",
        run::<{ fault::OUTPUT_UNLESS_DISCONNECTED }>,
    ),
    (
        "answers read-write-denied for type-unmatched",
        run::<{ fault::DENIES_UNMATCHED }>,
    ),
    (
        "takes an answer buffer of 31 bytes",
        run::<{ fault::TAKES_31_BYTES }>,
    ),
    (
        "answers with one invoke id for all",
        run::<{ fault::CONSTANT_INVOKE_ID }>,
    ),
    (
        "drops the priority of the invoke id",
        run::<{ fault::DROPS_PRIORITY }>,
    ),
    (
        "takes an enum for a method, not an integer",
        run::<{ fault::METHODS_TAKE_ENUM }>,
    ),
    (
        "takes a method without data",
        run::<{ fault::METHODS_TAKE_NOTHING }>,
    ),
    (
        "judges the value of a method",
        run::<{ fault::METHODS_DEMAND_ONE }>,
    ),
    (
        "takes bytes behind a whole request",
        run::<{ fault::TAKES_TRAILING_BYTES }>,
    ),
    (
        "takes flag 1 in a GET",
        run::<{ fault::TAKES_SELECTION_FLAG }>,
    ),
    (
        "takes a flag above 1 in an ACTION",
        run::<{ fault::TAKES_ANY_FLAG }>,
    ),
    (
        "reads the threshold in force as the normal one",
        run::<{ fault::GETS_THRESHOLD_IN_FORCE }>,
    ),
    (
        "moves the record after a denial",
        run::<{ fault::MOVES_AFTER_DENIAL }>,
    ),
    (
        "refuses a boolean above 1",
        run::<{ fault::REFUSES_WIDE_BOOLEAN }>,
    ),
    (
        "answers type-unmatched before object-undefined",
        run::<{ fault::TYPE_BEFORE_OBJECT }>,
    ),
    (
        "answers read-write-denied before type-unmatched",
        run::<{ fault::DENIED_BEFORE_TYPE }>,
    ),
    (
        "takes a SET of the control state",
        run::<{ fault::TAKES_UNWRITABLE }>,
    ),
    (
        "puts return data into an ACTION's answer",
        run::<{ fault::RETURNS_DATA }>,
    ),
    (
        "zeroes the buffer past the answer",
        run::<{ fault::ZEROES_PAST_ANSWER }>,
    ),
    ("writes true as 255", run::<{ fault::WRITES_TRUE_AS_255 }>),
    (
        "writes the low byte first",
        run::<{ fault::WRITES_LITTLE_ENDIAN }>,
    ),
    (
        "judges the page before the buffer",
        run::<{ fault::READS_PAGE_FIRST }>,
    ),
    (
        "judges the request before the page",
        run::<{ fault::READS_REQUEST_FIRST }>,
    ),
    ("hands on no letter", run::<{ fault::HANDS_ON_NO_LETTER }>),
    (
        "answers read-write-denied for object-undefined",
        run::<{ fault::DENIES_UNDEFINED }>,
    ),
    (
        "applies the filter when alarms are read",
        run::<{ fault::GETS_UNHIDDEN_ALARMS }>,
    ),
    (
        "takes an unsigned threshold",
        run::<{ fault::TAKES_UNSIGNED_THRESHOLD }>,
    ),
    (
        "sets the error filter for the alarm filter",
        run::<{ fault::SETS_ERROR_FILTER }>,
    ),
    (
        "finds objects by their name alone",
        run::<{ fault::IGNORES_CLASS }>,
    ),
    (
        "exchanges methods 1 and 2",
        run::<{ fault::EXCHANGES_METHODS }>,
    ),
    (
        "judges the page by the built-in table",
        run::<{ fault::JUDGES_PAGE_BY_BUILT_IN }>,
    ),
];
