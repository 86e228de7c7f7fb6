//! The command line.

use crate::counts::REQUESTS_FOR_EVERY_CASE;
use std::time::{Duration, SystemTime, UNIX_EPOCH};

pub const USAGE: &str = "\
usage: request [--requests N] [--seed S] [--seconds T] [--planted]
  --requests N  requests to compare, 2000000 if not given; from 500000 on the run
                fails unless every number, every result of each attribute and
                method, every letter and every form of request came up; below,
                that demand is left out
  --seed S      a number, or `random`; else 1
  --seconds T   stops after T seconds, 60 if not given; the run fails if fewer than
                N requests were compared by then
  --planted     runs against plain with blunders; each must be found within N
                requests and T seconds, 5 at most";

// USAGE writes this number out.
const _: () = assert!(REQUESTS_FOR_EVERY_CASE == 500_000);

const FIXED_SEED: u64 = 1;

/// The most time that one blunder gets.
const PLANTED_TIME: Duration = Duration::from_secs(5);

#[derive(Debug)]
pub struct Options {
    pub requests: u64,
    pub seed: u64,
    pub time: Duration,
    pub planted: bool,
}

impl Options {
    pub fn read(mut arguments: impl Iterator<Item = String>) -> Result<Options, String> {
        let mut options = Options {
            requests: 2_000_000,
            seed: FIXED_SEED,
            time: Duration::from_secs(60),
            planted: false,
        };
        while let Some(name) = arguments.next() {
            let mut value = || arguments.next().ok_or(format!("{name} lacks its value"));
            match name.as_str() {
                "--requests" => options.requests = number(&value()?)?,
                "--seed" => options.seed = seed(&value()?)?,
                "--seconds" => options.time = Duration::from_secs(number(&value()?)?),
                "--planted" => options.planted = true,
                _ => return Err(format!("unknown option {name}")),
            }
        }
        if options.planted {
            options.time = options.time.min(PLANTED_TIME);
        }
        Ok(options)
    }
}

fn seed(text: &str) -> Result<u64, String> {
    if text != "random" {
        return number(text);
    }
    let now = SystemTime::now().duration_since(UNIX_EPOCH);
    Ok(now.map_or(FIXED_SEED, |since| since.as_nanos() as u64))
}

fn number(text: &str) -> Result<u64, String> {
    text.parse().map_err(|_| format!("{text} is not a number"))
}

#[cfg(test)]
mod tests {
    use super::*;

    fn read(arguments: &[&str]) -> Result<Options, String> {
        Options::read(arguments.iter().map(|argument| argument.to_string()))
    }

    #[test]
    fn options_are_read() {
        let options = read(&["--requests", "5", "--seed", "9"]).unwrap();
        assert_eq!((options.requests, options.seed), (5, 9));
        assert!(!options.planted);
        assert_eq!(read(&[]).unwrap().seed, FIXED_SEED);
        assert_eq!(read(&["--planted"]).unwrap().time, PLANTED_TIME);
    }

    #[test]
    fn wrong_options_are_told() {
        assert!(read(&["--requests"]).is_err());
        assert!(read(&["--requests", "many"]).is_err());
        assert!(read(&["--fast"]).is_err());
    }
}
