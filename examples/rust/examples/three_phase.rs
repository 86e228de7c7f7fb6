//! A workshop berth with a three-phase meter on the proved core, in control mode 6:
//! prints each call with its answer, its letter and where the switch then stands,
//! then log 3, whether the same calls as one list leave the same page, and whether a
//! page of the other meter is taken.

mod common;

use common::{Outcome, Output, refused};
use pillar::three_phase::{self, PAGE, RECORD, Settings};
use pillar::{BUILT_IN, Called, Letter};
use std::io::Write;
use std::process::ExitCode;

/// Where the page has the control state, and log 3 its count and its lines.
const CONTROL_STATE: usize = 33;
const LOG_COUNT: usize = 425;
const LOG_LINES: usize = 426;
const LOG_LINE: usize = 5;

const SETTINGS: Settings = Settings {
    mode: 6,
    thresholds: [i32::MAX, 5000, 5000, i32::MAX],
    over: 1,
    under: 2,
    clock: 4_294_967_290,
};

/// The second sample is over in sum alone: 2,147,483,648 W, which 32 bits with a
/// sign do not hold. The third fires over on L3 while the switch is open; the fourth
/// under in sum, with L3 still exceeded; the fifth under on L3, too, and closes. The
/// clock is held from then on. The key moves nothing while the centre has
/// disconnected; afterwards it ends Exceeded, so that L2 fires again.
const CALLS: [(&str, u32, &[i32]); 18] = [
    ("sample", 1, &[i32::MAX, 0, 0]),
    ("sample", 1, &[i32::MAX, 1, 0]),
    ("sample", 1, &[i32::MIN, i32::MIN, 6000]),
    ("sample", 1, &[0, 0, 0]),
    ("sample", 1, &[0, 0, 0]),
    ("manual disconnect", 4, &[]),
    ("script", 15, &[1]),
    ("sample", 1, &[0, 5001, 0]),
    ("manual reconnect", 5, &[]),
    ("script", 15, &[2]),
    ("manual reconnect", 5, &[]),
    ("sample", 1, &[0, 5001, 0]),
    ("limiter", 7, &[100, 200, 300, -1, 3, 3]),
    ("limiter", 7, &[100, 200, 300, 400, 3, 3]),
    ("groups", 16, &[1, 0x10000]),
    ("profile", 17, &[1, 100, 0, 1]),
    ("mode", 6, &[0]),
    ("remote disconnect", 2, &[]),
];

fn main() -> ExitCode {
    common::run(berth)
}

fn berth(output: &mut Output) -> Outcome {
    let mut page = [0; PAGE];
    three_phase::fresh(&mut page, SETTINGS).map_err(refused)?;
    for (name, kind, numbers) in CALLS {
        let called = three_phase::call(&mut page, BUILT_IN, kind, padded(numbers));
        print(output, name, numbers, called, &page)?;
    }
    print_log(output, &page)?;
    three_phase::check(&page, BUILT_IN).map_err(refused)?;
    let mut replayed = [0; PAGE];
    three_phase::replay(&list(), BUILT_IN, &mut replayed).map_err(refused)?;
    let which = if replayed == page {
        "the same"
    } else {
        "another"
    };
    writeln!(output, "as one list: {which} page")?;
    match pillar::check(&page, BUILT_IN) {
        Ok(()) => writeln!(output, "the other meter takes the page")?,
        Err(refusal) => writeln!(output, "the other meter refuses the page with {refusal}")?,
    }
    Ok(())
}

/// The numbers that a kind takes, then zeros.
fn padded<const COUNT: usize>(numbers: &[i32]) -> [u32; COUNT] {
    std::array::from_fn(|i| numbers.get(i).copied().unwrap_or(0).cast_unsigned())
}

fn print(
    output: &mut Output,
    name: &str,
    numbers: &[i32],
    called: Called,
    page: &[u8; PAGE],
) -> Outcome {
    let numbers: String = numbers.iter().map(|number| format!(" {number}")).collect();
    let answer = called.answer.err().unwrap_or(0);
    let letter = called.letter.map_or('-', Letter::as_char);
    let switch = page[CONTROL_STATE];
    writeln!(
        output,
        "{name}{numbers}: answer {answer}, letter {letter}, switch {switch}"
    )?;
    Ok(())
}

fn print_log(output: &mut Output, page: &[u8; PAGE]) -> Outcome {
    let lines = page[LOG_LINES..].chunks_exact(LOG_LINE);
    for line in lines.take(page[LOG_COUNT].into()) {
        let clock = u32::from_be_bytes([line[0], line[1], line[2], line[3]]);
        writeln!(output, "disconnect log: {} at {clock}", line[4])?;
    }
    Ok(())
}

/// The settings and the calls as records.
fn list() -> Vec<u8> {
    let Settings {
        mode,
        thresholds,
        over,
        under,
        clock,
    } = SETTINGS;
    let [l1, l2, l3, sum] = thresholds.map(i32::cast_unsigned);
    let mut list = record(0, [mode, l1, l2, l3, sum, over, under, clock]);
    for (_, kind, numbers) in CALLS {
        list.extend(record(kind as u8, padded(numbers)));
    }
    list
}

fn record(kind: u8, numbers: [u32; 8]) -> Vec<u8> {
    let mut record = Vec::with_capacity(RECORD);
    record.push(kind);
    record.extend(numbers.iter().flat_map(|number| number.to_be_bytes()));
    record
}
