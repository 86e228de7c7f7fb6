//! A whole list of calls: records of 33 bytes, the kind and eight 32-bit big-endian
//! numbers, unused ones ignored. The first is fresh, of kind 0, with mode, four
//! thresholds, Over, Under and clock.

use super::{NUMBERS, PAGE, ThreePhase, is_kind};
use crate::table::Table;
use crate::{fault, refusal};

/// The length of one record of a list.
pub const RECORD: usize = 33;

/// Fresh has the most numbers.
const RECORD_NUMBERS: usize = 8;

impl<const FAULT: u8> ThreePhase<FAULT> {
    /// Runs a list and writes the last meter's page. Refused calls are passed over.
    /// The table is "the same for every call of the list and its writer" (02, A8).
    ///
    /// 100 without a byte, 102 with less than a record, 101 if the first is not
    /// fresh, then fresh's refusal, 102 if a later record is cut, and 8 if the
    /// buffer is short; the buffer then stays.
    pub fn replay(records: &[u8], table: &Table, page: &mut [u8]) -> Result<(), u8> {
        if records.is_empty() {
            return Err(refusal::EMPTY_LIST);
        }
        let (records, cut) = records.as_chunks::<RECORD>();
        let (first, calls) = records.split_first().ok_or(refusal::SHORT_LIST)?;
        if FAULT == fault::CUT_BEFORE_FRESH && !cut.is_empty() {
            return Err(refusal::SHORT_LIST);
        }
        let mut meter = Self::from_record(first)?;
        if !cut.is_empty() {
            return Err(refusal::SHORT_LIST);
        }
        if page.len() < PAGE {
            return Err(refusal::BUFFER);
        }
        meter.run_records(table, calls);
        meter.write_page(table, page)
    }

    /// A fresh record is sound, and every call keeps it so: no call tests it.
    fn run_records(&mut self, table: &Table, records: &[[u8; RECORD]]) {
        for record in records {
            if FAULT == fault::LIST_BEGINS_ANEW
                && let Ok(fresh) = Self::from_record(record)
            {
                *self = fresh;
            }
            let (kind, numbers) = decode(record);
            let numbers = *numbers.first_chunk::<NUMBERS>().expect("eight numbers");
            let refused =
                !is_kind::<FAULT>(kind) || self.command_sound(table, kind, numbers).is_err();
            if FAULT == fault::LIST_ENDS_AT_REFUSAL && refused {
                return;
            }
        }
    }

    fn from_record(record: &[u8; RECORD]) -> Result<Self, u8> {
        let (kind, [mode, l1, l2, l3, sum, over, under, clock]) = decode(record);
        if kind != 0 {
            return Err(refusal::BAD_LIST);
        }
        let thresholds = [l1, l2, l3, sum].map(|threshold| threshold as i32);
        Self::fresh(mode, thresholds, over, under, clock)
    }
}

#[inline]
fn decode(record: &[u8; RECORD]) -> (u32, [u32; RECORD_NUMBERS]) {
    let (&kind, bytes) = record.split_first().expect("a record has a kind");
    let (numbers, _) = bytes.as_chunks::<4>();
    let mut decoded = [0; RECORD_NUMBERS];
    for (number, bytes) in decoded.iter_mut().zip(numbers) {
        *number = u32::from_be_bytes(*bytes);
    }
    (kind.into(), decoded)
}
