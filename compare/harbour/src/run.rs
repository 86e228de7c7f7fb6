//! The differential test of one function: its fixed cases, then random ones, and
//! beside them the laws that document 02 states, on the proved side alone.

use crate::random::Random;
use crate::sides::{Plain, Proved, Side};
use std::collections::BTreeMap;
use std::fmt::Debug;

/// A law is tried once in so many random cases.
const CASES_PER_LAW: u64 = 10;

/// How many bytes of what was given a report shows; they are ASCII.
const SHOWN: usize = 4_000;

/// From this many cases on, a run must have met every answer, edge and law.
pub const CASES_FOR_EVERY_EDGE: u64 = 100_000;

/// What is tried, and whether it is at hand in a case with its answer.
pub type Edge<Case> = (&'static str, fn(&Case, u32) -> bool);

/// A function that is compared.
pub trait Subject {
    /// What the function is given.
    type Case: Debug + 'static;
    /// What it leaves behind, beside its answer.
    type Left: Debug + PartialEq;

    const NAME: &'static str;
    /// What it can answer.
    const ANSWERS: &'static [u32];
    const EDGES: &'static [Edge<Self::Case>];
    /// What [`Subject::law`] answers where a law holds.
    const LAWS: &'static [&'static str];

    fn fixed() -> Vec<Self::Case>;
    fn draw(random: &mut Random) -> Self::Case;
    fn run<S: Side>(case: &Self::Case) -> (u32, Self::Left);
    /// Tries a law on a side; answers which, or what does not hold.
    fn law<S: Side>(random: &mut Random) -> Result<&'static str, String>;
}

pub struct Plan {
    pub seed: u64,
    pub cases: u64,
    /// Whether the laws are tried too. Where a blunder is planted in plain they
    /// would say nothing about it.
    pub laws: bool,
}

/// What has been compared.
#[derive(Clone, Default)]
pub struct Counts {
    pub cases: u64,
    pub answers: BTreeMap<u32, u64>,
    pub edges: BTreeMap<&'static str, u64>,
    pub laws: BTreeMap<&'static str, u64>,
}

/// A difference, or a law that does not hold, and how far the run had come.
pub struct Found {
    pub what: String,
    pub cases: u64,
}

/// Compares plain, with a blunder or none, and the proved core.
pub fn run<S: Subject, const FAULT: u8>(plan: &Plan) -> Result<Counts, Found> {
    let mut counts = Counts::default();
    let mut random = Random::new(plan.seed);
    for case in S::fixed() {
        compare::<S, FAULT>(&case, &mut counts)?;
    }
    while counts.cases < plan.cases {
        let case = S::draw(&mut random);
        compare::<S, FAULT>(&case, &mut counts)?;
        if plan.laws && counts.cases.is_multiple_of(CASES_PER_LAW) {
            let law = S::law::<Proved>(&mut random).map_err(|what| Found {
                what: format!("BROKEN LAW of {}: {what}", S::NAME),
                cases: counts.cases,
            })?;
            *counts.laws.entry(law).or_default() += 1;
        }
    }
    Ok(counts)
}

fn compare<S: Subject, const FAULT: u8>(case: &S::Case, counts: &mut Counts) -> Result<(), Found> {
    let plain = S::run::<Plain<FAULT>>(case);
    let pillar = S::run::<Proved>(case);
    counts.cases += 1;
    if plain != pillar {
        let mut given = format!("{case:?}");
        if given.len() > SHOWN {
            given.truncate(SHOWN);
            given.push_str(" ..");
        }
        return Err(Found {
            what: format!(
                "DIFFERENCE in {}: {given}\n  plain {plain:?}\n  pillar {pillar:?}",
                S::NAME
            ),
            cases: counts.cases,
        });
    }
    let (answer, _) = plain;
    *counts.answers.entry(answer).or_default() += 1;
    for (name, holds) in S::EDGES {
        if holds(case, answer) {
            *counts.edges.entry(name).or_default() += 1;
        }
    }
    Ok(())
}

impl Counts {
    /// What a run of `cases` cases lacks, one line each; nothing if it passes.
    pub fn lacking<S: Subject>(&self, cases: u64) -> Vec<String> {
        let mut lacking = Vec::new();
        if self.cases < cases {
            lacking.push(format!("{} cases of {cases}", self.cases));
        }
        if cases < CASES_FOR_EVERY_EDGE {
            return lacking;
        }
        let never = S::ANSWERS
            .iter()
            .filter(|answer| !self.answers.contains_key(answer));
        lacking.extend(never.map(|answer| format!("never answered: {answer}")));
        let edges = S::EDGES.iter().map(|(name, _)| name);
        let never = edges.filter(|name| !self.edges.contains_key(*name));
        lacking.extend(never.map(|name| format!("never met: {name}")));
        let never = S::LAWS.iter().filter(|name| !self.laws.contains_key(*name));
        lacking.extend(never.map(|name| format!("law never tried: {name}")));
        lacking
    }
}

#[cfg(test)]
mod tests {
    use super::*;
    use crate::berths::Berths;

    fn enough() -> Counts {
        let mut counts = Counts {
            cases: CASES_FOR_EVERY_EDGE,
            ..Counts::default()
        };
        counts.answers = Berths::ANSWERS.iter().map(|answer| (*answer, 1)).collect();
        counts.edges = Berths::EDGES.iter().map(|(name, _)| (*name, 1)).collect();
        counts.laws = Berths::LAWS.iter().map(|name| (*name, 1)).collect();
        counts
    }

    #[test]
    fn all_of_it_passes() {
        assert!(enough().lacking::<Berths>(CASES_FOR_EVERY_EDGE).is_empty());
    }

    #[test]
    fn too_few_cases_fail() {
        let lacking = enough().lacking::<Berths>(CASES_FOR_EVERY_EDGE + 1);
        assert_eq!(lacking, ["100000 cases of 100001"]);
    }

    #[test]
    fn each_missing_answer_edge_and_law_fails() {
        let lacks = |counts: Counts| counts.lacking::<Berths>(CASES_FOR_EVERY_EDGE).len();
        for answer in Berths::ANSWERS {
            let mut counts = enough();
            counts.answers.remove(answer);
            assert_eq!(lacks(counts), 1, "{answer}");
        }
        for (name, _) in Berths::EDGES {
            let mut counts = enough();
            counts.edges.remove(name);
            assert_eq!(lacks(counts), 1, "{name}");
        }
        for name in Berths::LAWS {
            let mut counts = enough();
            counts.laws.remove(name);
            assert_eq!(lacks(counts), 1, "{name}");
        }
    }

    #[test]
    fn short_runs_need_no_edges() {
        let counts = Counts {
            cases: 308,
            ..Counts::default()
        };
        assert!(counts.lacking::<Berths>(308).is_empty());
    }
}
