//! Runs a list from standard input on the proved core, call by call, and prints
//! for each call its position and the letter of the move that it made, or `none`.

mod common;

use common::{Outcome, Output, failed, refused};
use pillar::{BUILT_IN, PAGE, Settings};
use std::io::Write;
use std::process::ExitCode;

/// Bytes of a record: the kind, then five big-endian numbers.
const RECORD: usize = 21;

fn main() -> ExitCode {
    common::run(letters)
}

fn letters(output: &mut Output) -> Outcome {
    let list = common::input()?;
    let (records, cut) = list.as_chunks::<RECORD>();
    let Some((first, calls)) = records.split_first().filter(|_| cut.is_empty()) else {
        return failed("the input is no list of whole records");
    };
    let (0, settings) = command(first) else {
        return failed("the first record is not fresh");
    };
    let mut page = [0; PAGE];
    fresh(&mut page, settings).map_err(refused)?;
    for (place, record) in (2..).zip(calls) {
        let (kind, numbers) = command(record);
        match pillar::call(&mut page, BUILT_IN, kind, numbers).letter {
            Some(letter) => writeln!(output, "{place} {}", letter.as_char())?,
            None => writeln!(output, "{place} none")?,
        }
    }
    Ok(())
}

fn command(record: &[u8; RECORD]) -> (u32, [u32; 5]) {
    let number = |i: usize| {
        let at = 1 + 4 * i;
        u32::from_be_bytes([record[at], record[at + 1], record[at + 2], record[at + 3]])
    };
    (u32::from(record[0]), std::array::from_fn(number))
}

fn fresh(page: &mut [u8], [mode, threshold, over, under, clock]: [u32; 5]) -> pillar::Answer {
    let settings = Settings {
        mode,
        threshold: threshold.cast_signed(),
        over,
        under,
        clock,
    };
    pillar::fresh(page, settings)
}
