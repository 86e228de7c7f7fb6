//! What has been compared, and whether it is enough for a run to pass.

use crate::apdu::{ATTRIBUTES, METHODS};
use crate::form::{FORMS, WHOLE};
use std::collections::BTreeMap;

/// From this many requests on, a run must have met everything in [`demanded`].
pub const REQUESTS_FOR_EVERY_CASE: u64 = 500_000;

/// Names of cases that are not made of a row, a form, a number or a letter.
pub mod case {
    pub const WIDE_BOOLEAN: &str = "a boolean above 1 in a whole request";
    pub const THRESHOLD_UNDER_PROFILE: &str =
        "GET of the normal threshold under an active profile with another";
    pub const LIMITER_UNDER_PROFILE: &str = "SET in class 71 under an active profile, with success";
    pub const OUTPUT: [&str; 3] = [
        "GET of the output state, Disconnected",
        "GET of the output state, Connected",
        "GET of the output state, Ready",
    ];
    pub const UNTYPED_UNDEFINED: &str = "object-undefined for an ACTION without an integer";
    pub const UNMATCHED_UNWRITABLE: &str = "type-unmatched where nothing is writable";
    pub const UNMATCHED_IN_MODE_0: &str = "type-unmatched for a method in control mode 0";
    pub const CLEARS_SOME: &str = "SET of errors or alarms that clears some and leaves some";
    pub const CLOSES: &str = "SET of control mode 0 that closes the switch";
    pub const LEAST_BUFFER: &str = "an answer into 32 bytes";
    pub const OWN_TABLE: &str = "an answer under an own table";
    pub const OWN_CODE: &str = "an answer on a page whose logs hold a code of its own table";
    pub const BAD_TABLE: &str = "an answer under a table that is not good";
    pub const TAKEN_UNDER_OTHER_TABLE: &str = "an answer under another table than the page's";
    pub const REFUSED_UNDER_OTHER_TABLE: &str = "11 under another table than the page's";
    pub const ALL: [&str; 17] = [
        WIDE_BOOLEAN,
        THRESHOLD_UNDER_PROFILE,
        LIMITER_UNDER_PROFILE,
        OUTPUT[0],
        OUTPUT[1],
        OUTPUT[2],
        UNTYPED_UNDEFINED,
        UNMATCHED_UNWRITABLE,
        UNMATCHED_IN_MODE_0,
        CLEARS_SOME,
        CLOSES,
        LEAST_BUFFER,
        OWN_TABLE,
        OWN_CODE,
        BAD_TABLE,
        TAKEN_UNDER_OTHER_TABLE,
        REFUSED_UNDER_OTHER_TABLE,
    ];
}

/// The numbers of refusals that a request may get, each with a request that is
/// whole and with one that is none, so that their order shows.
const NUMBERS: [u32; 4] = [9, 10, 11, 21];

#[derive(Clone, Default)]
pub struct Counts {
    pub requests: u64,
    pub calls: u64,
    pub met: BTreeMap<String, u64>,
}

impl Counts {
    pub fn count(&mut self, what: impl Into<String>) {
        *self.met.entry(what.into()).or_default() += 1;
    }

    /// What a run of `requests` requests lacks, one line each; nothing if it passes.
    pub fn lacking(&self, requests: u64) -> Vec<String> {
        let mut lacking = Vec::new();
        if self.requests < requests {
            lacking.push(format!(
                "the time (--seconds) ran out after {} of {requests} requests",
                self.requests
            ));
        }
        if requests >= REQUESTS_FOR_EVERY_CASE {
            let never = demanded().into_iter();
            let never = never.filter(|what| !self.met.contains_key(what));
            lacking.extend(never.map(|what| format!("never met: {what}")));
        }
        lacking
    }
}

/// The result of an answered request, by its service and row.
pub fn result(service: &str, row: &str, result: &str) -> String {
    format!("{service} {row}: {result}")
}

pub fn refused(number: u32, whole: bool) -> String {
    let request = if whole {
        "a whole request"
    } else {
        "no request"
    };
    format!("{number} for {request}")
}

/// Everything that a long run must meet.
fn demanded() -> Vec<String> {
    let mut demanded = Vec::new();
    for row in &ATTRIBUTES {
        demanded.push(result("GET", row.name, "data"));
        demanded.push(result("SET", row.name, "type-unmatched"));
        if row.writable {
            demanded.push(result("SET", row.name, "success"));
        }
        if row.refusable || !row.writable {
            demanded.push(result("SET", row.name, "read-write-denied"));
        }
    }
    for row in &METHODS {
        for met in ["success", "type-unmatched", "read-write-denied"] {
            demanded.push(result("ACTION", row.name, met));
        }
    }
    for service in ["GET", "SET", "ACTION"] {
        demanded.push(result(service, "of anything else", "object-undefined"));
    }
    for letter in ["a", "b", "c", "d", "none"] {
        demanded.push(format!("ACTION with success, letter {letter}"));
    }
    for number in NUMBERS {
        demanded.push(refused(number, true));
        demanded.push(refused(number, false));
    }
    let (whole, others) = FORMS.split_at(WHOLE);
    demanded.extend(whole.iter().map(|form| format!("answered: {form}")));
    demanded.extend(others.iter().map(|form| format!("20: {form}")));
    demanded.extend(case::ALL.map(String::from));
    demanded
}

#[cfg(test)]
mod tests {
    use super::*;

    fn enough() -> Counts {
        let mut counts = Counts {
            requests: REQUESTS_FOR_EVERY_CASE,
            ..Counts::default()
        };
        demanded().into_iter().for_each(|what| counts.count(what));
        counts
    }

    #[test]
    fn each_missing_case_fails() {
        assert!(enough().lacking(REQUESTS_FOR_EVERY_CASE).is_empty());
        for what in demanded() {
            let mut counts = enough();
            counts.met.remove(&what);
            let told = format!("never met: {what}");
            assert_eq!(counts.lacking(REQUESTS_FOR_EVERY_CASE), [told]);
        }
    }

    #[test]
    fn nothing_is_demanded_twice() {
        let mut names = demanded();
        names.sort();
        names.dedup();
        assert_eq!(names.len(), demanded().len());
    }

    #[test]
    fn too_few_requests_fail() {
        assert_eq!(enough().lacking(REQUESTS_FOR_EVERY_CASE + 1).len(), 1);
        assert_eq!(Counts::default().lacking(1).len(), 1);
        let counts = Counts {
            requests: 308,
            ..Counts::default()
        };
        assert!(counts.lacking(308).is_empty());
    }
}
