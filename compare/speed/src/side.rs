//! What a core must offer to be measured.

use crate::event_table::EventTable;
use pillar::PAGE;

pub type Page = [u8; PAGE];

#[derive(Clone, Copy)]
pub struct Call {
    pub kind: u32,
    pub numbers: [u32; 5],
}

/// How a list's records are made calls.
#[derive(Clone, Copy, PartialEq, Eq)]
pub enum Calls {
    OfList,
    ByMethod,
}

/// The proved core first, then those that it is measured against.
pub type Sides<'a> = [&'a dyn Side; SIDES];
pub const SIDES: usize = 3;

/// One core. Each job does its work in `rounds` rounds and answers a number
/// that tells whether it was done; the page lent shows what was done. The event
/// table is that of the page, loaded beforehand. The C interface alone, which does
/// the proved core's `call_on_page`, `replay` and `judge`, takes its bytes, and
/// loads them for each call and each list.
pub trait Side: Sync {
    fn name(&self) -> &'static str;

    /// Reads the page, runs the records of a list as calls from record to
    /// record in memory, the whole list in each round, and writes the page. The
    /// calls are those of a list, which is tested once, or each is the public
    /// one by kind and numbers, which tests the record.
    fn calls(
        &self,
        page: &mut Page,
        table: &EventTable,
        records: &[u8],
        rounds: u32,
        by: Calls,
    ) -> u32;

    /// Reads the page and tests its record; answers how often it was sound.
    fn sound(&self, page: &Page, table: &EventTable, rounds: u32) -> u32;

    /// Reads the page and writes its record, the clock counting the rounds;
    /// answers how often that was accepted.
    fn write(&self, page: &mut Page, table: &EventTable, rounds: u32) -> u32;

    /// Reads the page, the last byte of its clock counting the rounds; answers
    /// how often it was accepted.
    fn read(&self, page: &mut Page, table: &EventTable, rounds: u32) -> u32;

    /// Reads the page, runs a call and, unless it is refused, writes the page;
    /// answers the sum of the answers.
    fn call_on_page(&self, page: &mut Page, table: &EventTable, call: Call, rounds: u32) -> u32;

    /// Runs a whole list into the page; answers the sum of the answers.
    fn replay(&self, list: &[u8], table: &EventTable, page: &mut Page, rounds: u32) -> u32;

    /// Judges the bytes of the table; answers how often they were accepted. Plain
    /// has no function for that alone, and loads them.
    fn judge(&self, table: &EventTable, rounds: u32) -> u32;
}
