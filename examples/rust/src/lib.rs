//! Safe functions over the C interface of the proved core.
//!
//! The state of a meter is its page of [`PAGE`] bytes; the core keeps nothing
//! between calls. A refusal is the core's number, and the bytes lent stay as
//! they were; a call hands on the [`Letter`] of the move that it made. Whatever
//! is passed is safe: a slice goes over as its pointer and its length, and the
//! core judges the length.
//!
//! Whatever reads a page or runs a list takes the bytes of a table of events:
//! [`BUILT_IN`], or a harbour's own, which [`table`] judges. One table belongs to
//! one page. No call refuses a table: where its bytes are no good one, the built-in
//! table serves.
//!
//! The meter with three powers a second has a module of its own, [`three_phase`].

pub mod harbour;
mod letter;
#[cfg(not(feature = "stand-in"))]
mod linked;
mod request;
#[cfg(feature = "stand-in")]
mod stand_in;
pub mod three_phase;

#[cfg(not(feature = "stand-in"))]
use linked as core;
#[cfg(feature = "stand-in")]
use stand_in as core;

pub use letter::Letter;
pub use request::{ANSWER_BUFFER, Requested, request};

/// The page's length, `PILLAR_PAGE_SIZE`.
pub const PAGE: usize = 599;

/// The built-in table of events: no bytes.
pub const BUILT_IN: &[u8] = &[];

/// Whether plain runs here in the proved core's place.
pub const STAND_IN: bool = cfg!(feature = "stand-in");

/// `Ok(())`, or the number of the refusal, which `include/pillar.h` names.
pub type Answer = Result<(), u32>;

/// What a call answers, and the letter of the move that it made: none if it is
/// refused, moves nothing or sets mode 0.
#[derive(Clone, Copy, Debug, PartialEq, Eq)]
pub struct Called {
    pub answer: Answer,
    pub letter: Option<Letter>,
}

/// The numbers of a fresh meter.
#[derive(Clone, Copy, Debug, PartialEq, Eq)]
pub struct Settings {
    pub mode: u32,
    pub threshold: i32,
    pub over: u32,
    pub under: u32,
    pub clock: u32,
}

/// Writes a fresh meter's page into the first [`PAGE`] bytes: 1, 4, 5 or 8.
pub fn fresh(page: &mut [u8], settings: Settings) -> Answer {
    answer(core::fresh(page, settings))
}

/// Whether these bytes are a good table of events: 17, 18 or 19.
pub fn table(table: &[u8]) -> Answer {
    answer(core::table(table))
}

/// Runs one call on the meter whose page is lent; the kinds and their numbers
/// are those of `enum pillar_kind`. 13 by the kind, then 9, 10 or 11 from the
/// reader, then the call's own refusal.
///
/// # Panics
///
/// If the archive leaves a byte for the letter that is none. The proved core
/// never does.
pub fn call(page: &mut [u8], table: &[u8], kind: u32, numbers: [u32; 5]) -> Called {
    let (number, letter) = core::call(page, table, kind, numbers);
    Called {
        answer: answer(number),
        letter: Letter::of_byte(letter),
    }
}

/// Runs a list of 21-byte records and writes the last meter's page: 100 (no
/// byte), 102 (a cut record), 101 (the first is not fresh), 1, 4, 5 or 8.
pub fn replay(records: &[u8], table: &[u8], page: &mut [u8]) -> Answer {
    answer(core::replay(records, table, page))
}

/// Whether the reader takes this page under this table: 9, 10 or 11.
pub fn check(page: &[u8], table: &[u8]) -> Answer {
    answer(core::check(page, table))
}

fn answer(number: u32) -> Answer {
    match number {
        0 => Ok(()),
        refusal => Err(refusal),
    }
}
