//! What has been compared, and whether it is enough for a run to pass.

use crate::case::Case;
use crate::table_case::TableCase;
use std::collections::BTreeMap;

/// From this many calls on, a run must have met every answer, letter and case.
pub const CALLS_FOR_EVERY_ANSWER: u64 = 100_000;

/// What calls, fresh and the reader must have answered. 12 cannot be asked of
/// the proved core: its state is a page, and an unsound page is refused by the
/// reader (11).
const ANSWERS: [u32; 16] = [0, 1, 2, 3, 4, 5, 6, 7, 8, 9, 10, 11, 13, 14, 15, 16];

/// What replay must have answered: lists accepted, refused as fresh and the
/// writer refuse, and refused as no list.
const REPLAY_ANSWERS: [u32; 7] = [0, 1, 5, 8, 100, 101, 102];

/// What tables must have been judged.
const TABLE_ANSWERS: [u32; 4] = [0, 17, 18, 19];

/// For so many calls one table is judged.
pub const CALLS_PER_TABLE: u64 = 2;

/// The letters that calls must have answered.
const LETTERS: [char; 8] = ['a', 'b', 'c', 'd', 'e', 'f', 'g', 'h'];

/// How often each answer was given.
pub type Answers = BTreeMap<u32, u64>;

/// How often each letter was given.
pub type Letters = BTreeMap<char, u64>;

/// How often each case was met.
pub type Cases = BTreeMap<Case, u64>;
pub type TableCases = BTreeMap<TableCase, u64>;

/// What has been compared so far.
#[derive(Clone, Default)]
pub struct Counts {
    pub calls: u64,
    pub pages: u64,
    pub lists: u64,
    /// Tables judged beside the histories.
    pub tables: u64,
    /// Of calls, fresh and the reader.
    pub answers: Answers,
    pub replay_answers: Answers,
    pub table_answers: Answers,
    /// Of calls, none left out.
    pub letters: Letters,
    /// Of calls.
    pub cases: Cases,
    /// Of calls, pages and lists.
    pub table_cases: TableCases,
}

impl Counts {
    pub fn count_answer(&mut self, answer: u32) {
        *self.answers.entry(answer).or_default() += 1;
    }

    pub fn count_replay_answer(&mut self, answer: u32) {
        *self.replay_answers.entry(answer).or_default() += 1;
    }

    pub fn count_table_answer(&mut self, answer: u32) {
        *self.table_answers.entry(answer).or_default() += 1;
    }

    pub fn count_table_case(&mut self, case: TableCase) {
        *self.table_cases.entry(case).or_default() += 1;
    }

    pub fn count_letter(&mut self, letter: char) {
        *self.letters.entry(letter).or_default() += 1;
    }

    pub fn count_case(&mut self, case: Case) {
        *self.cases.entry(case).or_default() += 1;
    }

    /// What a run of `calls` calls lacks, one line each; nothing if it passes.
    pub fn lacking(&self, calls: u64) -> Vec<String> {
        let mut lacking = Vec::new();
        if self.calls < calls {
            lacking.push(format!(
                "the time (--seconds) ran out after {} of {calls} calls",
                self.calls
            ));
        }
        let tables = calls / CALLS_PER_TABLE;
        if self.tables < tables {
            lacking.push(format!("{} of {tables} tables were judged", self.tables));
        }
        if calls < CALLS_FOR_EVERY_ANSWER {
            return lacking;
        }
        let never = missing(&self.answers, &ANSWERS);
        if !never.is_empty() {
            lacking.push(format!("no call, fresh or reader answered {never}"));
        }
        let never = missing(&self.replay_answers, &REPLAY_ANSWERS);
        if !never.is_empty() {
            lacking.push(format!("no replay answered {never}"));
        }
        let never = missing(&self.table_answers, &TABLE_ANSWERS);
        if !never.is_empty() {
            lacking.push(format!("no table was answered {never}"));
        }
        let never = missing(&self.letters, &LETTERS);
        if !never.is_empty() {
            lacking.push(format!("no call answered the letter {never}"));
        }
        let never = Case::ALL
            .iter()
            .filter(|case| !self.cases.contains_key(case));
        lacking.extend(never.map(|case| format!("never met: {}", case.name())));
        let never = TableCase::ALL
            .iter()
            .filter(|case| !self.table_cases.contains_key(case));
        lacking.extend(never.map(|case| format!("never met: {}", case.name())));
        lacking
    }
}

/// The demanded answers or letters that were never given.
fn missing<T: Ord + ToString>(given: &BTreeMap<T, u64>, demanded: &[T]) -> String {
    let missing = demanded.iter().filter(|answer| !given.contains_key(answer));
    let missing: Vec<_> = missing.map(T::to_string).collect();
    missing.join(", ")
}

#[cfg(test)]
mod tests {
    use super::*;

    fn enough() -> Counts {
        let mut counts = Counts {
            calls: CALLS_FOR_EVERY_ANSWER,
            tables: CALLS_FOR_EVERY_ANSWER / CALLS_PER_TABLE + 1,
            ..Counts::default()
        };
        (0..=11).for_each(|answer| counts.count_answer(answer));
        (13..=16).for_each(|answer| counts.count_answer(answer));
        for answer in [0, 1, 5, 8, 100, 101, 102] {
            counts.count_replay_answer(answer);
        }
        ('a'..='h').for_each(|letter| counts.count_letter(letter));
        for answer in [0, 17, 18, 19] {
            counts.count_table_answer(answer);
        }
        Case::ALL.iter().for_each(|&case| counts.count_case(case));
        let cases = TableCase::ALL.iter();
        cases.for_each(|&case| counts.count_table_case(case));
        counts
    }

    #[test]
    fn all_calls_and_answers_pass() {
        assert!(enough().lacking(CALLS_FOR_EVERY_ANSWER).is_empty());
    }

    #[test]
    fn too_few_calls_fail() {
        let lacking = enough().lacking(CALLS_FOR_EVERY_ANSWER + 1);
        assert_eq!(
            lacking,
            ["the time (--seconds) ran out after 100000 of 100001 calls"]
        );
        assert_eq!(Counts::default().lacking(1).len(), 1);
    }

    #[test]
    fn each_missing_answer_fails() {
        for answer in ANSWERS {
            let mut counts = enough();
            counts.answers.remove(&answer);
            let told = format!("no call, fresh or reader answered {answer}");
            assert_eq!(counts.lacking(CALLS_FOR_EVERY_ANSWER), [told]);
        }
        for answer in TABLE_ANSWERS {
            let mut counts = enough();
            counts.table_answers.remove(&answer);
            let told = format!("no table was answered {answer}");
            assert_eq!(counts.lacking(CALLS_FOR_EVERY_ANSWER), [told]);
        }
        for answer in REPLAY_ANSWERS {
            let mut counts = enough();
            counts.replay_answers.remove(&answer);
            let told = format!("no replay answered {answer}");
            assert_eq!(counts.lacking(CALLS_FOR_EVERY_ANSWER), [told]);
        }
    }

    #[test]
    fn each_missing_letter_fails() {
        for letter in LETTERS {
            let mut counts = enough();
            counts.letters.remove(&letter);
            let told = format!("no call answered the letter {letter}");
            assert_eq!(counts.lacking(CALLS_FOR_EVERY_ANSWER), [told]);
        }
    }

    #[test]
    fn each_missing_case_fails() {
        for case in Case::ALL {
            let mut counts = enough();
            counts.cases.remove(&case);
            let told = format!("never met: {}", case.name());
            assert_eq!(counts.lacking(CALLS_FOR_EVERY_ANSWER), [told]);
        }
        for case in TableCase::ALL {
            let mut counts = enough();
            counts.table_cases.remove(&case);
            let told = format!("never met: {}", case.name());
            assert_eq!(counts.lacking(CALLS_FOR_EVERY_ANSWER), [told]);
        }
    }

    #[test]
    fn too_few_tables_fail() {
        let mut counts = enough();
        counts.tables = CALLS_FOR_EVERY_ANSWER / CALLS_PER_TABLE - 1;
        let lacking = counts.lacking(CALLS_FOR_EVERY_ANSWER);
        assert_eq!(lacking, ["49999 of 50000 tables were judged"]);
    }

    /// Replay refuses with fresh's numbers too; they don't stand for fresh's.
    #[test]
    fn replay_does_not_stand_for_fresh() {
        let mut counts = enough();
        counts.answers.remove(&4);
        counts.count_replay_answer(4);
        assert_eq!(counts.lacking(CALLS_FOR_EVERY_ANSWER).len(), 1);
    }

    #[test]
    fn short_runs_need_no_answers() {
        let counts = Counts {
            calls: 308,
            tables: 154,
            ..Counts::default()
        };
        assert!(counts.lacking(308).is_empty());
        assert_eq!(counts.lacking(309).len(), 1);
        assert_eq!(counts.lacking(310).len(), 2);
    }
}
