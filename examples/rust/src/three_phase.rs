//! Safe functions for the three-phase meter (document 02, A13). Its page is one of
//! its own, of [`PAGE`] bytes: the functions of one meter refuse a page of the
//! other with 9. Tables, letters and answers are as for the other meter.

use crate::{Answer, Called, Letter, answer};

#[cfg(not(feature = "stand-in"))]
mod linked;
#[cfg(feature = "stand-in")]
mod stand_in;

#[cfg(not(feature = "stand-in"))]
use linked as core;
#[cfg(feature = "stand-in")]
use stand_in as core;

/// The page's length, `THREE_PHASE_PAGE_SIZE`.
pub const PAGE: usize = 586;

/// Bytes of a record in a list, `THREE_PHASE_RECORD_SIZE`: the kind, then eight
/// big-endian numbers.
pub const RECORD: usize = 33;

/// The lines of the limiter, `THREE_PHASE_MONITORED_VALUES`: L1, L2, L3 and their sum.
pub const LINES: usize = 4;

/// The numbers of a fresh meter.
#[derive(Clone, Copy, Debug, PartialEq, Eq)]
pub struct Settings {
    pub mode: u32,
    /// Line by line, in watts.
    pub thresholds: [i32; LINES],
    pub over: u32,
    pub under: u32,
    pub clock: u32,
}

/// Writes a fresh meter's page into the first [`PAGE`] bytes: 1, 4, 5 or 8.
pub fn fresh(page: &mut [u8], settings: Settings) -> Answer {
    answer(core::fresh(page, settings))
}

/// Runs one of the fifteen calls on the meter whose page is lent; the kinds are
/// those of `enum pillar_kind`, 1 to 15, and so are their numbers, but a sample has
/// three powers and a limiter setting four thresholds, over and under. 13 by the
/// kind, then 9, 10 or 11 from the reader, then the call's own refusal.
///
/// # Panics
///
/// If the archive leaves a byte for the letter that is none. The proved core
/// never does.
pub fn call(page: &mut [u8], table: &[u8], kind: u32, numbers: [u32; 6]) -> Called {
    let (number, letter) = core::call(page, table, kind, numbers);
    Called {
        answer: answer(number),
        letter: Letter::of_byte(letter),
    }
}

/// Runs a list of records of [`RECORD`] bytes and writes the last meter's page: 100
/// (no byte), 102 (a cut record), 101 (the first is not fresh), 1, 4, 5 or 8.
pub fn replay(records: &[u8], table: &[u8], page: &mut [u8]) -> Answer {
    answer(core::replay(records, table, page))
}

/// Whether the reader takes this page under this table: 9, 10 or 11.
pub fn check(page: &[u8], table: &[u8]) -> Answer {
    answer(core::check(page, table))
}

#[cfg(test)]
mod tests {
    use super::*;
    use crate::BUILT_IN;

    const SETTINGS: Settings = Settings {
        mode: 6,
        thresholds: [10, 20, 30, 40],
        over: 1,
        under: 1,
        clock: 1000,
    };

    /// Each number of a call goes over in its place.
    #[test]
    fn numbers_keep_their_places() {
        let mut page = [0; PAGE];
        fresh(&mut page, SETTINGS).unwrap();
        let set = call(&mut page, BUILT_IN, 7, [1, 2, 3, 4, 5, 6]);
        assert_eq!((set.answer, set.letter), (Ok(()), None));
        let settings = Settings {
            thresholds: [1, 2, 3, 4],
            over: 5,
            under: 6,
            ..SETTINGS
        };
        let mut other = [0; PAGE];
        fresh(&mut other, settings).unwrap();
        // All but the logs, of which log 3 has a line more.
        assert_eq!(page[..103], other[..103]);
    }

    /// 13 before the page, then its length, then what is wrong in the call.
    #[test]
    fn refusals_come_in_their_order() {
        let mut page = [0; PAGE];
        fresh(&mut page, SETTINGS).unwrap();
        let before = page;
        let mut refused = |length: usize, kind: u32| {
            let called = call(&mut page[..length], BUILT_IN, kind, [u32::MAX; 6]);
            assert_eq!(called.letter, None);
            called.answer
        };
        assert_eq!(refused(PAGE - 1, 16), Err(13));
        assert_eq!(refused(PAGE, 17), Err(13));
        assert_eq!(refused(PAGE - 1, 7), Err(9));
        assert_eq!(refused(PAGE, 7), Err(4));
        assert_eq!(refused(PAGE, 15), Err(3));
        assert_eq!(page, before);
    }

    /// A page of one meter is none of the other's.
    #[test]
    fn pages_of_the_other_meter_are_refused() {
        let mut page = [0; PAGE];
        fresh(&mut page, SETTINGS).unwrap();
        assert_eq!(crate::check(&page, BUILT_IN), Err(9));
        let mut other = [0; crate::PAGE];
        let settings = crate::Settings {
            mode: 6,
            threshold: 10,
            over: 1,
            under: 1,
            clock: 1000,
        };
        crate::fresh(&mut other, settings).unwrap();
        assert_eq!(check(&other, BUILT_IN), Err(9));
    }
}
