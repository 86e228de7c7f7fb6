//! The three-phase meter of `libpillar.a`: safe functions over its C interface. The
//! package `pillar` links the archive, or says that plain stands in for it.

#[cfg(not(feature = "stand-in"))]
use linked as side;
#[cfg(feature = "stand-in")]
use stand_in as side;

/// The numbers of a fresh meter.
#[derive(Clone, Copy, Debug)]
pub struct Settings {
    pub mode: u32,
    /// L1, L2, L3 and the sum.
    pub thresholds: [i32; 4],
    pub over: u32,
    pub under: u32,
    pub clock: u32,
}

/// What a call answers: 0 or a refusal's number, and the byte of its letter.
#[derive(Clone, Copy, Debug, PartialEq, Eq)]
pub struct Called {
    pub answer: u32,
    pub letter: u8,
}

/// Writes a fresh meter's page: 1, 4, 5 or 8.
pub fn fresh(page: &mut [u8], settings: Settings) -> u32 {
    side::fresh(page, settings)
}

/// Runs one call on the meter of a page: 13, then 9, 10 or 11, then the call's own.
pub fn call(page: &mut [u8], table: &[u8], kind: u32, numbers: [u32; 6]) -> Called {
    side::call(page, table, kind, numbers)
}

/// Runs a list of 33-byte records: 100, 102, 101, 1, 4, 5, 102 or 8.
pub fn replay(records: &[u8], table: &[u8], page: &mut [u8]) -> u32 {
    side::replay(records, table, page)
}

/// Whether the reader takes this page under this table: 9, 10 or 11.
pub fn check(page: &[u8], table: &[u8]) -> u32 {
    side::check(page, table)
}

#[cfg(not(feature = "stand-in"))]
mod linked {
    use super::{Called, Settings};

    mod c {
        unsafe extern "C" {
            pub fn three_phase_fresh(
                page: *mut u8,
                length: usize,
                mode: u32,
                l1: i32,
                l2: i32,
                l3: i32,
                sum: i32,
                over: u32,
                under: u32,
                clock: u32,
            ) -> u32;

            pub fn three_phase_call(
                page: *mut u8,
                length: usize,
                table: *const u8,
                table_length: usize,
                kind: u32,
                n1: u32,
                n2: u32,
                n3: u32,
                n4: u32,
                n5: u32,
                n6: u32,
                letter: *mut u8,
            ) -> u32;

            pub fn three_phase_replay(
                records: *const u8,
                records_length: usize,
                table: *const u8,
                table_length: usize,
                page: *mut u8,
                page_length: usize,
            ) -> u32;

            pub fn three_phase_check(
                page: *const u8,
                length: usize,
                table: *const u8,
                table_length: usize,
            ) -> u32;
        }
    }

    pub fn fresh(page: &mut [u8], settings: Settings) -> u32 {
        let Settings {
            mode,
            thresholds: [l1, l2, l3, sum],
            over,
            under,
            clock,
        } = settings;
        let length = page.len();
        // SAFETY: pointer and length are those of one live, exclusive slice.
        unsafe {
            c::three_phase_fresh(
                page.as_mut_ptr(),
                length,
                mode,
                l1,
                l2,
                l3,
                sum,
                over,
                under,
                clock,
            )
        }
    }

    pub fn call(page: &mut [u8], table: &[u8], kind: u32, numbers: [u32; 6]) -> Called {
        let [n1, n2, n3, n4, n5, n6] = numbers;
        let length = page.len();
        // Stands for no letter and not for none, so that a call that stores nothing is
        // noticed.
        let mut letter = u8::MAX;
        // SAFETY: pointers and lengths are those of two live slices, the page's exclusive,
        // so that the table does not overlap it; the letter is a live, exclusive byte of its
        // own.
        let answer = unsafe {
            c::three_phase_call(
                page.as_mut_ptr(),
                length,
                table.as_ptr(),
                table.len(),
                kind,
                n1,
                n2,
                n3,
                n4,
                n5,
                n6,
                &mut letter,
            )
        };
        Called { answer, letter }
    }

    pub fn replay(records: &[u8], table: &[u8], page: &mut [u8]) -> u32 {
        let length = page.len();
        // SAFETY: pointers and lengths are those of three live slices; the page's is
        // exclusive, so neither of the others overlaps it.
        unsafe {
            c::three_phase_replay(
                records.as_ptr(),
                records.len(),
                table.as_ptr(),
                table.len(),
                page.as_mut_ptr(),
                length,
            )
        }
    }

    pub fn check(page: &[u8], table: &[u8]) -> u32 {
        // SAFETY: pointers and lengths are those of two live slices, which are read only.
        unsafe { c::three_phase_check(page.as_ptr(), page.len(), table.as_ptr(), table.len()) }
    }
}

/// Plain in the archive's place.
#[cfg(feature = "stand-in")]
mod stand_in {
    use super::{Called, Settings};
    use plain::Table;
    use plain::three_phase::Meter;

    pub fn fresh(page: &mut [u8], settings: Settings) -> u32 {
        let Settings {
            mode,
            thresholds,
            over,
            under,
            clock,
        } = settings;
        let meter = Meter::fresh(mode, thresholds, over, under, clock);
        number(meter.and_then(|meter| meter.write_page(&Table::BuiltIn, page)))
    }

    pub fn call(page: &mut [u8], table: &[u8], kind: u32, numbers: [u32; 6]) -> Called {
        let answer = Meter::call_on_page(page, &serving(table), kind, numbers);
        let letter = answer.ok().flatten();
        Called {
            answer: number(answer),
            letter: letter.map_or(0, |letter| letter.as_char() as u8),
        }
    }

    pub fn replay(records: &[u8], table: &[u8], page: &mut [u8]) -> u32 {
        number(Meter::replay(records, &serving(table), page))
    }

    pub fn check(page: &[u8], table: &[u8]) -> u32 {
        number(Meter::read_page(page, &serving(table)))
    }

    fn serving(table: &[u8]) -> Table {
        Table::load(table).unwrap_or_default()
    }

    fn number<T>(answer: Result<T, u8>) -> u32 {
        answer.err().unwrap_or(0).into()
    }
}
