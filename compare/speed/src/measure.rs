//! Safe functions over `libmeasure.a`: the proved core on a record in memory,
//! many times over.

use crate::event_table::EventTable;
use crate::side::{Calls, Page};

/// An event table as the core has it: a number for each code.
pub type Index = [u16; 256];

mod c {
    use super::Index;

    unsafe extern "C" {
        pub fn measure_table(table: *const u8, table_length: usize, index: *mut Index);

        pub fn measure_calls(
            page: *mut u8,
            length: usize,
            records: *const u8,
            records_length: usize,
            rounds: u32,
            by_method: u32,
            table: *const Index,
        ) -> u32;

        pub fn measure_sound(
            page: *const u8,
            length: usize,
            rounds: u32,
            table: *const Index,
        ) -> u32;

        pub fn measure_write(page: *mut u8, length: usize, rounds: u32, table: *const Index)
        -> u32;

        pub fn measure_read(page: *mut u8, length: usize, rounds: u32, table: *const Index) -> u32;
    }
}

/// The table of these bytes.
pub fn index_of(bytes: &[u8]) -> Index {
    let mut index = [0; 256];
    // SAFETY: pointer and length are those of one live slice; the index is live and
    // exclusive, so the two don't overlap.
    unsafe { c::measure_table(bytes.as_ptr(), bytes.len(), &mut index) }
    index
}

pub struct Measure;

impl Measure {
    pub fn calls(
        &self,
        page: &mut Page,
        table: &EventTable,
        records: &[u8],
        rounds: u32,
        by: Calls,
    ) -> u32 {
        let (length, records_length) = (page.len(), records.len());
        // SAFETY: both pairs are those of live slices, and the index is live; the
        // page's is exclusive, so neither of the others overlaps it.
        unsafe {
            c::measure_calls(
                page.as_mut_ptr(),
                length,
                records.as_ptr(),
                records_length,
                rounds,
                u32::from(by == Calls::ByMethod),
                &table.index,
            )
        }
    }

    pub fn sound(&self, page: &Page, table: &EventTable, rounds: u32) -> u32 {
        // SAFETY: pointer and length are those of one live slice, which is read only,
        // as the live index is.
        unsafe { c::measure_sound(page.as_ptr(), page.len(), rounds, &table.index) }
    }

    pub fn write(&self, page: &mut Page, table: &EventTable, rounds: u32) -> u32 {
        // SAFETY: pointer and length are those of one live, exclusive slice, so the
        // live index doesn't overlap it.
        unsafe { c::measure_write(page.as_mut_ptr(), page.len(), rounds, &table.index) }
    }

    pub fn read(&self, page: &mut Page, table: &EventTable, rounds: u32) -> u32 {
        // SAFETY: pointer and length are those of one live, exclusive slice, so the
        // live index doesn't overlap it.
        unsafe { c::measure_read(page.as_mut_ptr(), page.len(), rounds, &table.index) }
    }
}
