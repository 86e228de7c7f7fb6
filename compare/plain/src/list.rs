//! A whole list of calls: "records of 21 bytes: kind, five 32-bit big-endian
//! numbers, unused ones ignored".

use crate::meter::Machine;
use crate::page::PAGE;
use crate::refusal;
use crate::table::Table;

/// The length of one record of a list.
pub const RECORD: usize = 21;

impl<const FAULT: u8, const VECTORS: bool> Machine<FAULT, VECTORS> {
    /// Runs a list, its fresh record first, and writes the last meter's page.
    /// Refused calls are passed over, as in the bench program's run. The table is
    /// "the same for every call of the list and its writer" (02, A8).
    ///
    /// 100 without a byte, 102 with less than a record, 101 if the first is
    /// not fresh, then fresh's refusal, 102 if a later record is cut, and 8 if
    /// the buffer is short; the buffer then stays. 100 to 102 and this order
    /// are the C interface's.
    pub fn replay(records: &[u8], table: &Table, page: &mut [u8]) -> Result<(), u8> {
        if records.is_empty() {
            return Err(refusal::EMPTY_LIST);
        }
        let (records, cut) = records.as_chunks::<RECORD>();
        let (first, calls) = records.split_first().ok_or(refusal::SHORT_LIST)?;
        let mut meter = Self::from_record(first)?;
        if !cut.is_empty() {
            return Err(refusal::SHORT_LIST);
        }
        if page.len() < PAGE {
            return Err(refusal::BUFFER);
        }
        meter.run_records(table, calls);
        meter.write_page(table, page)
    }

    /// Runs every whole record of these bytes as a call.
    pub fn run(&mut self, table: &Table, records: &[u8]) {
        let (records, _) = records.as_chunks::<RECORD>();
        self.run_records(table, records);
    }

    /// The record is tested once: an unsound one every call refuses, and a sound
    /// one every call keeps sound.
    #[inline]
    fn run_records(&mut self, table: &Table, records: &[[u8; RECORD]]) {
        if !self.sound(table) {
            return;
        }
        for record in records {
            let (kind, numbers) = decode(record);
            let _ = self.command_sound(table, kind, numbers);
        }
    }

    /// Runs every whole record of these bytes as a call that tests the record.
    pub fn run_tested(&mut self, table: &Table, records: &[u8]) {
        let (records, _) = records.as_chunks::<RECORD>();
        for record in records {
            let (kind, numbers) = decode(record);
            let _ = self.command(table, kind, numbers);
        }
    }

    /// "The first has kind 0 and is fresh, else one line `bad` ends it."
    fn from_record(record: &[u8; RECORD]) -> Result<Self, u8> {
        let (kind, [mode, threshold, over, under, clock]) = decode(record);
        if kind != 0 {
            return Err(refusal::BAD_LIST);
        }
        Self::fresh(mode, threshold as i32, over, under, clock)
    }
}

#[inline]
fn decode(record: &[u8; RECORD]) -> (u32, [u32; 5]) {
    let (&kind, numbers) = record.split_first().expect("a record has a kind");
    let (numbers, _) = numbers.as_chunks::<4>();
    let number = |place: usize| u32::from_be_bytes(numbers[place]);
    (
        kind.into(),
        [number(0), number(1), number(2), number(3), number(4)],
    )
}
