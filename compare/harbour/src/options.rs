//! The command line.

use crate::run::CASES_FOR_EVERY_EDGE;
use std::ffi::OsString;
use std::time::{SystemTime, UNIX_EPOCH};

pub const USAGE: &str = "\
usage: harbour [--cases N] [--seed S] [--planted]
  --cases N  cases of each function, 1000000 if not given; from 100000 on the
             run fails unless every answer, edge and law came up
  --seed S   a number, or `random`; else COMPARE_SEED; else 1
  --planted  runs against plain with blunders; each must be found in N cases";

// USAGE writes this number out.
const _: () = assert!(CASES_FOR_EVERY_EDGE == 100_000);

const FIXED_SEED: u64 = 1;

#[derive(Debug, PartialEq, Eq)]
pub struct Options {
    pub cases: u64,
    pub seed: u64,
    pub planted: bool,
}

impl Options {
    /// Reads the arguments; `environment` is asked for COMPARE_SEED where they
    /// have no seed.
    pub fn read(
        arguments: impl Iterator<Item = String>,
        environment: impl FnOnce() -> Option<OsString>,
    ) -> Result<Options, String> {
        let mut arguments = arguments;
        let mut cases = 1_000_000;
        let mut given_seed = None;
        let mut planted = false;
        while let Some(name) = arguments.next() {
            let mut value = || arguments.next().ok_or(format!("{name} lacks its value"));
            match name.as_str() {
                "--cases" => cases = number(&value()?)?,
                "--seed" => given_seed = Some(seed(&value()?)?),
                "--planted" => planted = true,
                _ => return Err(format!("unknown option {name}")),
            }
        }
        let seed = match given_seed {
            Some(seed) => seed,
            None => environment().map_or(Ok(FIXED_SEED), seed_of_environment)?,
        };
        Ok(Options {
            cases,
            seed,
            planted,
        })
    }
}

fn seed_of_environment(value: OsString) -> Result<u64, String> {
    let wrong = || format!("COMPARE_SEED is {value:?}, neither a number nor `random`");
    let text = value.to_str().ok_or_else(wrong)?;
    seed(text).map_err(|_| wrong())
}

fn seed(text: &str) -> Result<u64, String> {
    if text != "random" {
        return number(text);
    }
    let now = SystemTime::now().duration_since(UNIX_EPOCH);
    Ok(now.map_or(FIXED_SEED, |since| since.as_nanos() as u64))
}

fn number(text: &str) -> Result<u64, String> {
    text.parse().map_err(|_| format!("{text} is not a number"))
}

#[cfg(test)]
mod tests {
    use super::*;

    fn read(arguments: &[&str], environment: Option<&str>) -> Result<Options, String> {
        let arguments = arguments.iter().map(|argument| argument.to_string());
        Options::read(arguments, || environment.map(OsString::from))
    }

    #[test]
    fn options_are_read() {
        let options = |cases, seed, planted| {
            Ok(Options {
                cases,
                seed,
                planted,
            })
        };
        assert_eq!(read(&[], None), options(1_000_000, FIXED_SEED, false));
        let given = read(&["--cases", "5", "--seed", "9", "--planted"], Some("x"));
        assert_eq!(given, options(5, 9, true));
        assert_eq!(read(&[], Some("7")), options(1_000_000, 7, false));
    }

    #[test]
    fn wrong_options_are_told() {
        for wrong in [&["--cases"][..], &["--cases", "many"], &["--fast"]] {
            assert!(read(wrong, None).is_err());
        }
        let wrong = read(&[], Some("seven")).unwrap_err();
        assert!(wrong.starts_with("COMPARE_SEED is \""), "{wrong}");
    }
}
