//! Tables of events: good ones, and what a worn memory or a wrong writer would hand
//! over.

use crate::random::Random;
use crate::table::{DOCUMENT_01, EventTable, LINE, Line, MOST_LINES, NO_BIT, is_barred};

/// The longest table that is drawn, in bytes.
pub const LONGEST: usize = 300;

/// Codes that a good table has more often: the first, the last, the one that is an
/// event and a log's code, and built-in ones.
const CODES: [u8; 10] = [0, 1, 6, 9, 40, 58, 68, 70, 128, 254];
const BITS: [u8; 5] = [0, 5, 13, 31, NO_BIT];

/// The table of a history: none, a good one, or one that is not good.
pub fn of_history(random: &mut Random) -> EventTable {
    EventTable::of(match random.below(8) {
        0..=2 => Vec::new(),
        3 => DOCUMENT_01.as_flattened().to_vec(),
        7 => to_judge(random),
        _ => good(random),
    })
}

/// A table that may have any fault, or none.
pub fn to_judge(random: &mut Random) -> Vec<u8> {
    match random.below(8) {
        0 => anything(random),
        1 => nearly_rising(random),
        2 => good(random),
        _ => damaged(random),
    }
}

/// A table near this one: a line fewer or more, a log or a bit changed; or another.
pub fn near(random: &mut Random, table: &EventTable) -> EventTable {
    let mut lines = table.lines().to_vec();
    let place = random.below(lines.len());
    match random.below(5) {
        0 if lines.len() > 1 => {
            lines.remove(place);
        }
        1 => lines[place][1] = 1 + random.below(3) as u8,
        2 => lines[place][2] = random.pick(&BITS),
        3 => {
            let code = random.byte();
            let free = lines.iter().all(|line| line[0] != code);
            if free && !is_barred(code) && lines.len() < MOST_LINES {
                lines.push(line(random, code));
                lines.sort_unstable();
            }
        }
        _ => return of_history(random),
    }
    EventTable::of(lines.as_flattened().to_vec())
}

fn good(random: &mut Random) -> Vec<u8> {
    let any = 1 + random.below(MOST_LINES);
    let lines = random.pick(&[1, 2, 5, 12, 12, 18, MOST_LINES, any]);
    good_of(random, lines)
}

/// A good table of so many lines.
fn good_of(random: &mut Random, lines: usize) -> Vec<u8> {
    let mut codes: Vec<u8> = (0..=255).filter(|&code| !is_barred(code)).collect();
    let mut chosen = Vec::new();
    while chosen.len() < lines {
        let favoured = random.pick(&CODES);
        let place = match codes.binary_search(&favoured) {
            Ok(place) if random.one_in(2) => place,
            _ => random.below(codes.len()),
        };
        chosen.push(codes.remove(place));
    }
    chosen.sort_unstable();
    chosen
        .into_iter()
        .flat_map(|code| line(random, code))
        .collect()
}

fn line(random: &mut Random, code: u8) -> Line {
    let log = 1 + random.below(3) as u8;
    [code, log, bit(random), bit(random)]
}

fn bit(random: &mut Random) -> u8 {
    match random.below(4) {
        0 => NO_BIT,
        1 => random.pick(&BITS),
        _ => random.below(32) as u8,
    }
}

/// A good table with one piece of damage, or with two, so that it shows which
/// decides.
fn damaged(random: &mut Random) -> Vec<u8> {
    let mut bytes = good(random);
    damage(random, &mut bytes);
    if random.one_in(2) && !bytes.is_empty() {
        damage(random, &mut bytes);
    }
    bytes
}

fn damage(random: &mut Random, bytes: &mut Vec<u8>) {
    let place = random.below(bytes.len());
    let start = place - place % LINE;
    let whole = start + LINE <= bytes.len();
    match random.below(10) {
        0 => bytes[place] = random.byte(),
        1 => bytes[place] ^= 1 << random.below(8),
        2 if whole => bytes[start] = random.pick(&[4, 5, 10, 11, 59, 63, 67, 69, 255]),
        3 if start > 0 => bytes[start] = bytes[start - LINE],
        4 if start > 0 => bytes[start] = bytes[start - LINE].saturating_sub(1),
        5 if whole => bytes[start + 1] = random.pick(&[0, 4, 5, 128, 255]),
        6 if whole => {
            let bit = start + 2 + random.below(2);
            bytes[bit] = random.pick(&[32, 33, 63, 64, 128, 253, 254]);
        }
        7 if start > 0 && whole => {
            for byte in 0..LINE {
                bytes.swap(start + byte, start - LINE + byte);
            }
        }
        8 => bytes.truncate(random.pick(&[0, 1, place, start, bytes.len() - 1])),
        _ => lengthen(random, bytes),
    }
}

/// By a byte or a few, or to the most lines and one more.
fn lengthen(random: &mut Random, bytes: &mut Vec<u8>) {
    let some = 1 + random.below(2 * LINE);
    if random.one_in(2) {
        let byte = random.byte();
        bytes.resize(bytes.len() + some, byte);
        return;
    }
    let lines = random.pick(&[MOST_LINES, MOST_LINES + 1, MOST_LINES + 1, MOST_LINES + 2]);
    *bytes = good_of(random, lines);
}

/// Bytes of any length.
fn anything(random: &mut Random) -> Vec<u8> {
    let length = random.below(LONGEST + 1);
    (0..length).map(|_| random.byte()).collect()
}

/// Codes that mostly rise, logs and bits at the edges of their ranges.
fn nearly_rising(random: &mut Random) -> Vec<u8> {
    let mut code = random.below(3) as u8;
    let mut bytes = Vec::new();
    for _ in 0..1 + random.below(MOST_LINES) {
        let log = random.pick(&[1, 1, 1, 2, 2, 2, 3, 3, 3, 1, 2, 3, 0, 4]);
        let bits = [0; 2].map(|_| random.pick(&[0, 1, 30, 31, 31, NO_BIT, NO_BIT, 32, 254]));
        bytes.extend([code, log, bits[0], bits[1]]);
        let step = random.pick(&[1, 1, 2, 3, 7, 0]);
        code = code.wrapping_add(step);
    }
    bytes
}

#[cfg(test)]
mod tests {
    use super::*;
    use crate::table::Serving;

    #[test]
    fn good_tables_are_good() {
        let mut random = Random::new(1);
        for lines in 1..=MOST_LINES {
            let table = EventTable::of(good_of(&mut random, lines));
            assert_eq!(table.serving, Serving::Own, "{lines} lines");
            assert_eq!(table.lines().len(), lines);
        }
        for _ in 0..1000 {
            assert_eq!(plain::Table::load(&good(&mut random)).err(), None);
        }
    }

    /// Each answer at least once in twenty.
    #[test]
    fn drawn_tables_have_every_answer() {
        let mut random = Random::new(1);
        let mut answers = [0; 20];
        for _ in 0..10_000 {
            let loaded = plain::Table::load(&to_judge(&mut random));
            answers[usize::from(loaded.err().unwrap_or(0))] += 1;
        }
        for answer in [0, 17, 18, 19] {
            assert!(answers[answer] > 500, "{answer}: {}", answers[answer]);
        }
    }
}
