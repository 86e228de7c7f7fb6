//! The command line.

use crate::counts::CALLS_FOR_EVERY_CASE;
use std::ffi::OsString;
use std::time::{Duration, SystemTime, UNIX_EPOCH};

pub const USAGE: &str = "\
usage: three-phase [--calls N] [--pages N] [--seed S] [--seconds T] [--planted]
  --calls N    calls to compare, 2000000 if not given; from 200000 on the run
               fails unless every answer, letter and case came up
  --pages N    damaged pages to compare beside them, 1000000 if not given
  --seed S     a number, or `random`; else COMPARE_SEED; else 1
  --seconds T  stops after T seconds, 120 if not given; the run fails if fewer
               calls or pages were compared by then; the fixed sweeps at its end
               don't count
  --planted    runs against plain with blunders; each must be found within N
               calls and T seconds, 10 at most";

// USAGE writes this number out.
const _: () = assert!(CALLS_FOR_EVERY_CASE == 200_000);

const FIXED_SEED: u64 = 1;

/// The most time that one blunder gets.
const PLANTED_TIME: Duration = Duration::from_secs(10);

#[derive(Debug, PartialEq, Eq)]
pub struct Options {
    pub calls: u64,
    pub pages: u64,
    pub seed: u64,
    pub time: Duration,
    pub planted: bool,
}

impl Options {
    /// Reads the arguments; `environment` is asked for COMPARE_SEED where they
    /// have no seed.
    pub fn read(
        arguments: impl Iterator<Item = String>,
        environment: impl FnOnce() -> Option<OsString>,
    ) -> Result<Options, String> {
        let mut arguments = arguments;
        let mut calls = 2_000_000;
        let mut pages = 1_000_000;
        let mut given_seed = None;
        let mut time = Duration::from_secs(120);
        let mut planted = false;
        while let Some(name) = arguments.next() {
            let mut value = || arguments.next().ok_or(format!("{name} lacks its value"));
            match name.as_str() {
                "--calls" => calls = number(&value()?)?,
                "--pages" => pages = number(&value()?)?,
                "--seed" => given_seed = Some(seed(&value()?)?),
                "--seconds" => time = Duration::from_secs(number(&value()?)?),
                "--planted" => planted = true,
                _ => return Err(format!("unknown option {name}")),
            }
        }
        let seed = match given_seed {
            Some(seed) => seed,
            None => environment().map_or(Ok(FIXED_SEED), seed_of_environment)?,
        };
        if planted {
            time = time.min(PLANTED_TIME);
        }
        Ok(Options {
            calls,
            pages,
            seed,
            time,
            planted,
        })
    }
}

fn seed_of_environment(value: OsString) -> Result<u64, String> {
    let wrong = || format!("COMPARE_SEED is {value:?}, neither a number nor `random`");
    let text = value.to_str().ok_or_else(wrong)?;
    seed(text).map_err(|_| wrong())
}

fn seed(text: &str) -> Result<u64, String> {
    if text != "random" {
        return number(text);
    }
    let now = SystemTime::now().duration_since(UNIX_EPOCH);
    Ok(now.map_or(FIXED_SEED, |since| since.as_nanos() as u64))
}

fn number(text: &str) -> Result<u64, String> {
    text.parse().map_err(|_| format!("{text} is not a number"))
}

#[cfg(test)]
mod tests {
    use super::*;

    fn read(arguments: &[&str], environment: Option<&str>) -> Result<Options, String> {
        let arguments = arguments.iter().map(|argument| argument.to_string());
        Options::read(arguments, || environment.map(OsString::from))
    }

    #[test]
    fn options_are_read() {
        let options = read(&[], None).unwrap();
        assert_eq!((options.calls, options.pages), (2_000_000, 1_000_000));
        assert_eq!((options.seed, options.planted), (FIXED_SEED, false));
        assert_eq!(options.time, Duration::from_secs(120));
        let given = ["--calls", "5", "--pages", "6", "--seed", "9"];
        let options = read(&given, Some("x")).unwrap();
        assert_eq!((options.calls, options.pages, options.seed), (5, 6, 9));
        assert_eq!(read(&[], Some("7")).unwrap().seed, 7);
    }

    #[test]
    fn wrong_options_are_told() {
        for wrong in [&["--calls"][..], &["--pages", "many"], &["--fast"]] {
            assert!(read(wrong, None).is_err());
        }
        let wrong = read(&[], Some("seven")).unwrap_err();
        assert!(wrong.starts_with("COMPARE_SEED is \""), "{wrong}");
    }

    #[test]
    fn a_blunder_gets_ten_seconds_at_most() {
        let time = |arguments: &[&str]| read(arguments, None).unwrap().time.as_secs();
        assert_eq!(time(&["--planted"]), 10);
        assert_eq!(time(&["--seconds", "2", "--planted"]), 2);
    }
}
