//! Counts instructions by callgrind, which a busy machine doesn't change: this
//! program runs itself with two numbers of rounds, and the difference is what
//! the further rounds cost.

use crate::item::Item;
use crate::side::{SIDES, Sides};
use crate::table::{self, Unit};
use std::io::{Error, ErrorKind};
use std::process::{Command, ExitCode};
use std::thread;

/// The first argument of a run that is counted: then item, side and rounds.
pub const COUNTED: &str = "--counted";

/// How many operations the further rounds have at least.
const OPERATIONS: usize = 300;

const UNIT: Unit = Unit {
    name: "instructions",
    decimals: 0,
};

pub fn run(items: &[Item], sides: Sides) -> ExitCode {
    match Command::new("valgrind").arg("--version").output() {
        Err(error) if error.kind() == ErrorKind::NotFound => {
            println!("valgrind is not installed: no instructions are counted");
            return ExitCode::SUCCESS;
        }
        _ => table::print_head(sides, &UNIT),
    }
    for (place, item) in items.iter().enumerate() {
        match instructions(place, item) {
            Ok(counts) => table::print_row(item, counts, &UNIT),
            Err(error) => {
                println!("'{}' was not counted: {error}", item.name);
                return ExitCode::FAILURE;
            }
        }
    }
    ExitCode::SUCCESS
}

/// One run that is counted. It has a thread, whose stack begins at a page: on the
/// first stack the length of the environment shifts the record, and copies cost
/// by their alignment.
pub fn run_counted(items: &[Item], sides: Sides, words: &[&str]) -> Option<ExitCode> {
    let [place, side, rounds] = words else {
        return None;
    };
    let item = items.get(place.parse::<usize>().ok()?)?;
    let side = sides.get(side.parse::<usize>().ok()?)?;
    let rounds = rounds.parse().ok()?;
    let run = thread::scope(|scope| scope.spawn(|| item.run(*side, rounds)).join());
    println!("{:016x}", run.ok()?);
    Some(ExitCode::SUCCESS)
}

/// The instructions per operation of each side.
fn instructions(place: usize, item: &Item) -> Result<[f64; SIDES], Error> {
    let further = OPERATIONS.div_ceil(item.operations) as u32;
    let mut counts = [0.0; SIDES];
    let mut digests = [const { String::new() }; SIDES];
    for side in 0..SIDES {
        let (few, _) = counted(place, side, 1)?;
        let (many, digest) = counted(place, side, 1 + further)?;
        counts[side] = (many - few) / item.operations_in(further);
        digests[side] = digest;
    }
    if digests.iter().any(|digest| *digest != digests[0]) {
        return Err(Error::other("the digests differ"));
    }
    Ok(counts)
}

/// The instructions of one run, and the digest that it printed.
fn counted(place: usize, side: usize, rounds: u32) -> Result<(f64, String), Error> {
    let output = Command::new("valgrind")
        .args(["--tool=callgrind", "--callgrind-out-file=/dev/null"])
        .arg(std::env::current_exe()?)
        .arg(COUNTED)
        .args([place.to_string(), side.to_string(), rounds.to_string()])
        .output()?;
    let said = String::from_utf8_lossy(&output.stderr);
    let digest = String::from_utf8_lossy(&output.stdout);
    match collected(&said) {
        Some(count) if output.status.success() => Ok((count, digest.into_owned())),
        _ => Err(Error::other(said)),
    }
}

/// The number behind "Collected :".
fn collected(said: &str) -> Option<f64> {
    let (_, behind) = said.split_once("Collected :")?;
    behind.split_whitespace().next()?.parse().ok()
}
