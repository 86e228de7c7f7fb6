//! What has been compared, and whether it is enough for a run to pass.

use crate::case::{Case, Seen};
use std::collections::BTreeMap;

/// From this many calls on, a run must have met every answer, letter and case.
pub const CALLS_FOR_EVERY_CASE: u64 = 200_000;

/// What calls, fresh and the reader must have answered. 12 cannot be asked of the
/// proved core: its state is a page, and an unsound page is refused by the reader.
const ANSWERS: [u32; 13] = [0, 1, 2, 3, 4, 5, 6, 7, 8, 9, 10, 11, 13];

/// What replay must have answered.
const REPLAY_ANSWERS: [u32; 8] = [0, 1, 4, 5, 8, 100, 101, 102];

/// The letters that calls must have answered.
const LETTERS: [char; 8] = ['a', 'b', 'c', 'd', 'e', 'f', 'g', 'h'];

/// What has been compared so far.
#[derive(Clone, Default)]
pub struct Counts {
    pub calls: u64,
    /// Damaged pages beside the histories.
    pub pages: u64,
    /// Pages, lengths and lists of the fixed sweeps.
    pub swept: u64,
    pub lists: u64,
    /// Of calls, fresh and the reader.
    pub answers: BTreeMap<u32, u64>,
    pub replay_answers: BTreeMap<u32, u64>,
    pub letters: BTreeMap<char, u64>,
    pub cases: BTreeMap<Case, u64>,
}

/// What a run is asked for.
#[derive(Clone, Copy)]
pub struct Demand {
    pub calls: u64,
    pub pages: u64,
}

impl Counts {
    pub fn count_answer(&mut self, answer: u32) {
        *self.answers.entry(answer).or_default() += 1;
    }

    pub fn count_replay_answer(&mut self, answer: u32) {
        *self.replay_answers.entry(answer).or_default() += 1;
    }

    /// A call that has been compared.
    pub fn count_call(&mut self, seen: &Seen) {
        self.count_answer(seen.answer);
        if seen.letter != 0 {
            *self.letters.entry(seen.letter.into()).or_default() += 1;
        }
        for case in Case::of(seen) {
            *self.cases.entry(case).or_default() += 1;
        }
    }

    /// What a run lacks, one line each; nothing if it passes.
    pub fn lacking(&self, demand: Demand) -> Vec<String> {
        let mut lacking = Vec::new();
        let Demand { calls, pages } = demand;
        if self.calls < calls || self.pages < pages {
            lacking.push(format!(
                "the time (--seconds) ran out after {} of {calls} calls and {} of {pages} pages",
                self.calls, self.pages
            ));
        }
        if calls < CALLS_FOR_EVERY_CASE {
            return lacking;
        }
        let told = |what: &str, never: String| match never.as_str() {
            "" => None,
            never => Some(format!("{what} {never}")),
        };
        let answers = missing(&self.answers, &ANSWERS);
        lacking.extend(told("no call, fresh or reader answered", answers));
        let answers = missing(&self.replay_answers, &REPLAY_ANSWERS);
        lacking.extend(told("no replay answered", answers));
        let letters = missing(&self.letters, &LETTERS);
        lacking.extend(told("no call answered the letter", letters));
        let mut cases = Case::all();
        cases.retain(|case| !self.cases.contains_key(case));
        lacking.extend(cases.iter().map(|case| format!("never met: {case}")));
        lacking
    }
}

/// The demanded answers or letters that were never given.
fn missing<T: Ord + ToString>(given: &BTreeMap<T, u64>, demanded: &[T]) -> String {
    let missing = demanded.iter().filter(|answer| !given.contains_key(answer));
    let missing: Vec<_> = missing.map(T::to_string).collect();
    missing.join(", ")
}

#[cfg(test)]
mod tests {
    use super::*;

    const ENOUGH: Demand = Demand {
        calls: CALLS_FOR_EVERY_CASE,
        pages: 5,
    };

    fn enough() -> Counts {
        Counts {
            calls: CALLS_FOR_EVERY_CASE,
            pages: 5,
            answers: ANSWERS.map(|answer| (answer, 1)).into(),
            replay_answers: REPLAY_ANSWERS.map(|answer| (answer, 1)).into(),
            letters: LETTERS.map(|letter| (letter, 1)).into(),
            cases: Case::all().into_iter().map(|case| (case, 1)).collect(),
            ..Counts::default()
        }
    }

    #[test]
    fn enough_passes() {
        assert_eq!(enough().lacking(ENOUGH), [""; 0]);
    }

    #[test]
    fn whatever_is_missing_is_told() {
        for answer in ANSWERS {
            let mut counts = enough();
            counts.answers.remove(&answer);
            let told = format!("no call, fresh or reader answered {answer}");
            assert_eq!(counts.lacking(ENOUGH), [told]);
        }
        for answer in REPLAY_ANSWERS {
            let mut counts = enough();
            counts.replay_answers.remove(&answer);
            let told = format!("no replay answered {answer}");
            assert_eq!(counts.lacking(ENOUGH), [told]);
        }
        for letter in LETTERS {
            let mut counts = enough();
            counts.letters.remove(&letter);
            let told = format!("no call answered the letter {letter}");
            assert_eq!(counts.lacking(ENOUGH), [told]);
        }
        for case in Case::all() {
            let mut counts = enough();
            counts.cases.remove(&case);
            assert_eq!(counts.lacking(ENOUGH), [format!("never met: {case}")]);
        }
    }

    #[test]
    fn cases_have_names_of_their_own() {
        let mut names: Vec<_> = Case::all().iter().map(Case::to_string).collect();
        let all = names.len();
        names.sort_unstable();
        names.dedup();
        assert_eq!(names.len(), all);
    }

    #[test]
    fn too_few_calls_or_pages_fail() {
        let few = |calls, pages| enough().lacking(Demand { calls, pages }).len();
        assert_eq!(few(CALLS_FOR_EVERY_CASE + 1, 5), 1);
        assert_eq!(few(CALLS_FOR_EVERY_CASE, 6), 1);
        let short = Counts {
            calls: 9,
            pages: 1,
            ..Counts::default()
        };
        let demand = |calls, pages| Demand { calls, pages };
        assert!(short.lacking(demand(9, 1)).is_empty());
        assert_eq!(short.lacking(demand(10, 1)).len(), 1);
    }
}
