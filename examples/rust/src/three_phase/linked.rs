//! The proved core's functions, linked as `libpillar.a`.

use super::Settings;

mod c {
    unsafe extern "C" {
        pub fn three_phase_fresh(
            page: *mut u8,
            length: usize,
            mode: u32,
            l1: i32,
            l2: i32,
            l3: i32,
            sum: i32,
            over: u32,
            under: u32,
            clock: u32,
        ) -> u32;

        pub fn three_phase_call(
            page: *mut u8,
            length: usize,
            table: *const u8,
            table_length: usize,
            kind: u32,
            n1: u32,
            n2: u32,
            n3: u32,
            n4: u32,
            n5: u32,
            n6: u32,
            letter: *mut u8,
        ) -> u32;

        pub fn three_phase_replay(
            records: *const u8,
            records_length: usize,
            table: *const u8,
            table_length: usize,
            page: *mut u8,
            page_length: usize,
        ) -> u32;

        pub fn three_phase_check(
            page: *const u8,
            length: usize,
            table: *const u8,
            table_length: usize,
        ) -> u32;
    }
}

pub fn fresh(page: &mut [u8], settings: Settings) -> u32 {
    let Settings {
        mode,
        thresholds: [l1, l2, l3, sum],
        over,
        under,
        clock,
    } = settings;
    let length = page.len();
    // SAFETY: pointer and length are those of one live, exclusive slice.
    unsafe {
        c::three_phase_fresh(
            page.as_mut_ptr(),
            length,
            mode,
            l1,
            l2,
            l3,
            sum,
            over,
            under,
            clock,
        )
    }
}

/// The number, and the byte that stands for the letter.
pub fn call(page: &mut [u8], table: &[u8], kind: u32, numbers: [u32; 6]) -> (u32, u8) {
    let [n1, n2, n3, n4, n5, n6] = numbers;
    let length = page.len();
    // Stands for no letter and not for none, so that a call that stores nothing is noticed.
    let mut letter = u8::MAX;
    // SAFETY: pointers and lengths are those of two live slices, the page's exclusive, so that the
    // table does not overlap it; the letter is a live, exclusive byte of its own.
    let number = unsafe {
        c::three_phase_call(
            page.as_mut_ptr(),
            length,
            table.as_ptr(),
            table.len(),
            kind,
            n1,
            n2,
            n3,
            n4,
            n5,
            n6,
            &mut letter,
        )
    };
    (number, letter)
}

pub fn replay(records: &[u8], table: &[u8], page: &mut [u8]) -> u32 {
    let page_length = page.len();
    // SAFETY: pointers and lengths are those of live slices; the page's is exclusive, so
    // that neither of the others overlaps it.
    unsafe {
        c::three_phase_replay(
            records.as_ptr(),
            records.len(),
            table.as_ptr(),
            table.len(),
            page.as_mut_ptr(),
            page_length,
        )
    }
}

pub fn check(page: &[u8], table: &[u8]) -> u32 {
    // SAFETY: pointers and lengths are those of two live slices, which are read only.
    unsafe { c::three_phase_check(page.as_ptr(), page.len(), table.as_ptr(), table.len()) }
}
