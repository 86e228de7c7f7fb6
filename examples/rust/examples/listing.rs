//! Document 01's worked example on the proved core: prints its listing.

mod common;

use common::{Outcome, Output};
use pillar::{Answer, BUILT_IN, PAGE, Settings};
use std::io::Write;
use std::process::ExitCode;

/// Where the page has the control state and the openings.
const CONTROL_STATE: usize = 37;
const OPENINGS: usize = 38;

const CALLS: [(u32, i32); 14] = [
    (1, 3000),
    (1, 3001),
    (1, 3001),
    (5, 0),
    (1, 0),
    (1, -5),
    (1, 0),
    (2, 0),
    (5, 0),
    (15, 3),
    (15, 2),
    (6, 7),
    (6, 0),
    (2, 0),
];

fn main() -> ExitCode {
    common::run(listing)
}

fn listing(output: &mut Output) -> Outcome {
    let mut page = [0; PAGE];
    let settings = Settings {
        mode: 5,
        threshold: 3000,
        over: 2,
        under: 3,
        clock: 1000,
    };
    let answer = pillar::fresh(&mut page, settings);
    print(output, 1, answer, &page)?;
    for (position, (kind, number)) in (2..).zip(CALLS) {
        let called = pillar::call(&mut page, BUILT_IN, kind, [number as u32, 0, 0, 0, 0]);
        print(output, position, called.answer, &page)?;
    }
    Ok(())
}

/// "Per record a line: position from 1, refusal or 0, switch, openings."
fn print(output: &mut Output, position: u32, answer: Answer, page: &[u8; PAGE]) -> Outcome {
    let refusal = answer.err().unwrap_or(0);
    let openings = u32::from_be_bytes([0, 1, 2, 3].map(|byte| page[OPENINGS + byte]));
    let switch = page[CONTROL_STATE];
    writeln!(output, "{position} {refusal} {switch} {openings}")?;
    Ok(())
}
