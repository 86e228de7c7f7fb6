//! The command line.

use crate::counts::CALLS_FOR_EVERY_ANSWER;
use std::ffi::OsString;
use std::time::{Duration, SystemTime, UNIX_EPOCH};

pub const USAGE: &str = "\
usage: compare [--calls N] [--seed S] [--seconds T] [--planted]
  --calls N    calls to compare, 2000000 if not given; from 100000 on the run
               fails unless every answer occurred (0 to 11 and 13 to 16 from
               calls, fresh and reader, 0, 1, 5, 8 and 100 to 102 from replay,
               0 and 17 to 19 from tables), every letter a to h from calls,
               and every case that document 02's requests are about; below,
               that demand is left out. For two calls one table is judged
  --seed S     a number, or `random`; else COMPARE_SEED; else 1
  --seconds T  stops after T seconds, 60 if not given; the run fails if fewer
               than N calls were compared by then; the fixed sweeps at its
               start don't count (0.5 seconds, 7 in a debug build)
  --planted    runs against plain with blunders; each must be found within N
               calls and T seconds, 5 at most";

// USAGE writes this number out.
const _: () = assert!(CALLS_FOR_EVERY_ANSWER == 100_000);

const FIXED_SEED: u64 = 1;

/// The most time that one blunder gets.
const PLANTED_TIME: Duration = Duration::from_secs(5);

#[derive(Debug)]
pub struct Options {
    pub calls: u64,
    pub seed: u64,
    pub time: Duration,
    pub planted: bool,
}

impl Options {
    /// Reads the arguments; `environment` is asked for COMPARE_SEED where they
    /// have no seed.
    pub fn read(
        arguments: impl Iterator<Item = String>,
        environment: impl FnOnce() -> Option<OsString>,
    ) -> Result<Options, String> {
        let mut arguments = arguments;
        let mut calls = 2_000_000;
        let mut given_seed = None;
        let mut time = Duration::from_secs(60);
        let mut planted = false;
        while let Some(name) = arguments.next() {
            let mut value = || arguments.next().ok_or(format!("{name} lacks its value"));
            match name.as_str() {
                "--calls" => calls = number(&value()?)?,
                "--seed" => given_seed = Some(seed(&value()?)?),
                "--seconds" => time = Duration::from_secs(number(&value()?)?),
                "--planted" => planted = true,
                _ => return Err(format!("unknown option {name}")),
            }
        }
        let seed = match given_seed {
            Some(seed) => seed,
            None => environment().map_or(Ok(FIXED_SEED), seed_of_environment)?,
        };
        if planted {
            time = time.min(PLANTED_TIME);
        }
        Ok(Options {
            calls,
            seed,
            time,
            planted,
        })
    }
}

fn seed_of_environment(value: OsString) -> Result<u64, String> {
    let wrong = || format!("COMPARE_SEED is {value:?}, neither a number nor `random`");
    let text = value.to_str().ok_or_else(wrong)?;
    seed(text).map_err(|_| wrong())
}

fn seed(text: &str) -> Result<u64, String> {
    if text != "random" {
        return number(text);
    }
    let now = SystemTime::now().duration_since(UNIX_EPOCH);
    Ok(now.map_or(FIXED_SEED, |since| since.as_nanos() as u64))
}

fn number(text: &str) -> Result<u64, String> {
    text.parse().map_err(|_| format!("{text} is not a number"))
}

#[cfg(test)]
mod tests {
    use super::*;

    fn read_with(arguments: &[&str], environment: Option<&str>) -> Result<Options, String> {
        let arguments = arguments.iter().map(|argument| argument.to_string());
        Options::read(arguments, || environment.map(OsString::from))
    }

    fn read(arguments: &[&str]) -> Result<Options, String> {
        read_with(arguments, None)
    }

    #[test]
    fn options_are_read() {
        let options = read(&["--calls", "5", "--seed", "9"]).unwrap();
        assert_eq!((options.calls, options.seed), (5, 9));
        assert!(!options.planted);
        assert_eq!(options.time, Duration::from_secs(60));
        assert_eq!(read(&[]).unwrap().seed, FIXED_SEED);
    }

    #[test]
    fn wrong_options_are_told() {
        assert!(read(&["--calls"]).is_err());
        assert!(read(&["--calls", "many"]).is_err());
        assert!(read(&["--fast"]).is_err());
    }

    #[test]
    fn the_environment_gives_the_seed() {
        assert_eq!(read_with(&[], Some("7")).unwrap().seed, 7);
        for garbage in ["seven", "", "-1", "18446744073709551616"] {
            let wrong = read_with(&[], Some(garbage)).unwrap_err();
            assert!(wrong.starts_with("COMPARE_SEED is \""), "{wrong}");
        }
    }

    #[test]
    fn a_given_seed_leaves_the_environment_unread() {
        let arguments = ["--seed", "9"].map(String::from).into_iter();
        let options = Options::read(arguments, || panic!("COMPARE_SEED was read"));
        assert_eq!(options.unwrap().seed, 9);
    }

    #[test]
    fn a_blunder_gets_five_seconds_at_most() {
        let time = |arguments: &[&str]| read(arguments).unwrap().time.as_secs();
        assert_eq!(time(&["--planted"]), 5);
        assert_eq!(time(&["--planted", "--seconds", "100"]), 5);
        assert_eq!(time(&["--seconds", "2", "--planted"]), 2);
    }
}
