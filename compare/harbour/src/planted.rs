//! The same test against plain with a blunder: it must find each one.

use crate::berths::Berths;
use crate::energy::{Joins, Samples};
use crate::run::{Counts, Found, Plan, run};
use crate::tariff::Bills;
use plain::{berths, energy, tariff};

type Run = fn(&Plan) -> Result<Counts, Found>;

macro_rules! planted {
    ($($subject:ident $module:ident::$fault:ident: $name:literal),* $(,)?) => {
        &[$(($name, run::<$subject, { $module::fault::$fault }>)),*]
    };
}

pub const PLANTED: &[(&str, Run)] = planted![
    Berths berths::FIRST_PART_DROPPED: "drops the first parts",
    Berths berths::CAP_BEYOND_FIRST_PART: "bounds by the cap only what is beyond the first part",
    Berths berths::ORDER_REVERSED: "fills from the last berth to the first",
    Berths berths::NEGATIVE_DEMAND: "allots a negative demand",
    Berths berths::ANY_LIMIT: "judges no limit for 23",
    Berths berths::EQUALITY_REFUSED: "refuses guarantees equal to the limit",
    Berths berths::SUM_BEFORE_RANGES: "answers 24 before 23",
    Berths berths::TAKES_SEVENTEEN: "takes seventeen berths",
    Berths berths::TAKES_NONE: "takes a list without a berth",
    Berths berths::ANY_GUARANTEE: "takes a negative guarantee",
    Berths berths::GUARANTEE_ABOVE_CAP: "takes a guarantee above its cap",
    Berths berths::FIRST_BERTH_JUDGED: "judges the first berth alone",
    Berths berths::LAST_BERTH_UNJUDGED: "does not judge the last berth",
    Berths berths::SUM_IN_32_BITS: "sums the guarantees in 32 bits",
    Berths berths::HOLDS_GUARANTEES_BACK: "holds back a guarantee that is not demanded",
    Berths berths::DEMAND_PASSED: "allots the cap where less is demanded",
    Berths berths::REFUSAL_CLEARS: "sets the allotments 0 at a refusal",
    Samples energy::LOWEST_LOST: "loses the lowest power",
    Samples energy::LOWEST_CUT: "cuts a watt off the lowest power",
    Samples energy::DIRECTIONS_CANCEL: "takes export off import",
    Samples energy::DIRECTIONS_EXCHANGED: "exchanges import and export",
    Samples energy::TAKES_ONE_SAMPLE_MORE: "takes 86,401 samples",
    Samples energy::TAKES_ONE_SAMPLE_FEWER: "refuses 86,400 samples",
    Joins energy::CARRY_DROPPED: "drops the carry of a join",
    Joins energy::CARRY_NOT_JUDGED: "judges 27 without the carry",
    Joins energy::REMAINDER_3600_TAKEN: "joins a remainder of 3,600",
    Joins energy::OWN_REMAINDERS_TAKEN: "does not judge the first day's remainders",
    Joins energy::OTHER_REMAINDERS_TAKEN: "does not judge the second day's remainders",
    Joins energy::EXPORT_REMAINDERS_TAKEN: "does not judge remainders of export",
    Joins energy::ANY_JOINED_EXPORT: "does not judge joined export",
    Joins energy::ANY_JOINED_IMPORT: "does not judge joined import",
    Joins energy::MOST_JOINED_REFUSED: "refuses 2^53 joined watt-hours",
    Joins energy::JOINED_BEFORE_REMAINDER: "answers 27 before 26",
    Joins energy::HOURS_WRAP: "lets joined watt-hours wrap at 64 bits",
    Bills tariff::REST_NOT_CARRIED: "does not carry the rest",
    Bills tariff::REST_BEFORE_PRICE: "answers 29 before 28",
    Bills tariff::IMPORT_BEFORE_REST: "answers 30 before 29",
    Bills tariff::LAST_RATE_LEFT_OUT: "leaves the last rate out",
    Bills tariff::LAST_RATE_UNJUDGED: "does not judge the last rate",
    Bills tariff::RATES_EXCHANGED: "exchanges two prices",
    Bills tariff::SUM_WRAPS: "lets the sum wrap at 64 bits",
    Bills tariff::ROUNDS: "rounds to the nearest cent",
    Bills tariff::WHOLE_CENTS_BY_RATE: "cuts each rate to whole cents",
    Bills tariff::REMAINDERS_LEFT_OUT: "leaves the watt-seconds out",
    Bills tariff::HIGHEST_PRICE_REFUSED: "refuses a price of 1,000,000",
    Bills tariff::HIGHER_PRICE_TAKEN: "takes a price of 1,000,001",
    Bills tariff::WHOLE_REST_TAKEN: "takes a rest of 3,600,000",
    Bills tariff::MOST_BILLED_REFUSED: "refuses 2^31 watt-hours",
    Bills tariff::MORE_BILLED: "takes 2^31 + 1 watt-hours",
    Bills tariff::REMAINDER_3600_TAKEN: "bills a remainder of 3,600",
];
