//! "One column, sixteen berths" (02, A10).

use crate::random::Random;
use crate::run::{Edge, Subject};
use crate::sides::Side;
use pillar::harbour::Berth;

pub struct Berths;

/// A column's limit and its berths.
#[derive(Clone, Debug)]
pub struct Column {
    limit: i32,
    berths: Vec<Berth>,
}

const MOST: usize = 16;

impl Subject for Berths {
    type Case = Column;
    type Left = Vec<Berth>;

    const NAME: &'static str = "column_allot";
    const ANSWERS: &'static [u32] = &[0, 22, 23, 24];
    const EDGES: &'static [Edge<Column>] = &[
        ("no berth", |column, _| column.berths.is_empty()),
        ("one berth", |column, answer| {
            answer == 0 && column.berths.len() == 1
        }),
        ("sixteen berths", |column, answer| {
            answer == 0 && column.berths.len() == MOST
        }),
        ("seventeen berths", |column, _| {
            column.berths.len() == MOST + 1
        }),
        ("22 where 23 and 24 hold too", |column, answer| {
            answer == 22 && column.wrong() && column.sum() > column.limit.into()
        }),
        ("23 by the limit alone", |column, answer| {
            answer == 23 && !column.berths.iter().any(wrong)
        }),
        ("23 by a guarantee below 0 alone", |column, answer| {
            let good = |berth: &Berth| !wrong(berth) || berth.guarantee < 0 && berth.cap >= 0;
            answer == 23 && column.limit >= 0 && column.berths.iter().all(good)
        }),
        ("23 by a guarantee above its cap alone", |column, answer| {
            let good = |berth: &Berth| !wrong(berth) || berth.cap >= 0 && berth.guarantee >= 0;
            answer == 23 && column.limit >= 0 && column.berths.iter().all(good)
        }),
        ("23 by a cap below 0", |column, answer| {
            answer == 23 && column.berths.iter().any(|berth| berth.cap < 0)
        }),
        ("23 by the last berth alone", |column, answer| {
            let others = &column.berths[..column.berths.len().saturating_sub(1)];
            answer == 23 && column.limit >= 0 && others.len() > 1 && !others.iter().any(wrong)
        }),
        ("23 where 24 holds too", |column, answer| {
            answer == 23 && column.limit >= 0 && column.sum() > column.limit.into()
        }),
        ("guarantees one watt above the limit", |column, answer| {
            answer == 24 && column.sum() == i64::from(column.limit) + 1
        }),
        ("guarantees equal to the limit", |column, answer| {
            answer == 0 && column.sum() == i64::from(column.limit)
        }),
        ("guarantees above 32 bits", |column, answer| {
            answer == 24 && column.sum() > i64::from(u32::MAX)
        }),
        ("guarantees that are good in 32 bits", |column, answer| {
            answer == 24 && (0..=column.limit).contains(&(column.sum() as i32))
        }),
        ("what all want above 32 bits", |column, answer| {
            answer == 0 && column.wanted() > i64::from(u32::MAX)
        }),
        ("a negative demand", |column, answer| {
            answer == 0 && column.berths.iter().any(|berth| berth.demand < 0)
        }),
        ("the lowest demand", |column, answer| {
            answer == 0 && column.berths.iter().any(|berth| berth.demand == i32::MIN)
        }),
        ("a demand below a guarantee", |column, answer| {
            let below = |berth: &Berth| 0 < berth.demand && berth.demand < berth.guarantee;
            answer == 0 && column.berths.iter().any(below)
        }),
        ("a demand above a cap", |column, answer| {
            answer == 0 && column.berths.iter().any(|berth| berth.demand > berth.cap)
        }),
        ("a cap of 0", |column, answer| {
            answer == 0 && column.berths.iter().any(|berth| berth.cap == 0)
        }),
        (
            "all that is wanted fits, with some left",
            |column, answer| answer == 0 && column.wanted() < column.limit.into(),
        ),
        ("not all that is wanted fits", |column, answer| {
            answer == 0 && column.wanted() > column.limit.into()
        }),
    ];
    const LAWS: &'static [&'static str] = &["berths: limit used up", "berths: limit left over"];

    fn fixed() -> Vec<Column> {
        let berth = Berth {
            guarantee: 3,
            cap: 9,
            demand: 7,
            allotment: -1,
        };
        let counts = (0..40).map(|count| Column {
            limit: 60,
            berths: vec![berth; count],
        });
        // Two guarantees whose sum is around the limit, at each of 16 places.
        let mut sums = Vec::new();
        for limit in [0, 1, 6, i32::MAX - 1, i32::MAX] {
            for more in -1..=1_i64 {
                let sum = (i64::from(limit) + more).max(0);
                let halves = [sum / 2, sum - sum / 2].map(|half| half as i32);
                let berths = halves.map(|guarantee| Berth {
                    guarantee,
                    cap: guarantee,
                    demand: i32::MAX,
                    allotment: 5,
                });
                sums.push(Column {
                    limit,
                    berths: berths.to_vec(),
                });
            }
        }
        counts.chain(sums).collect()
    }

    fn draw(random: &mut Random) -> Column {
        let mut column = accepted(random);
        match random.below(16) {
            0 => column.berths.clear(),
            1 => {
                let length = MOST + 1 + random.length(3);
                column.berths.resize(length, Berth::default());
            }
            2 => column.limit = random.power(),
            3 => column.limit = random.pick(&[-1, i32::MIN]),
            4 => column.limit = 0,
            5 => column.limit = limit_around(column.sum(), random),
            _ => {}
        }
        if column.berths.is_empty() {
            return column;
        }
        for _ in 0..random.below(3) {
            if random.one_in(4) {
                spoil(random, &mut column);
            }
        }
        column
    }

    fn run<S: Side>(column: &Column) -> (u32, Vec<Berth>) {
        let mut berths = column.berths.clone();
        let answer = S::allot(column.limit, &mut berths);
        (answer, berths)
    }

    /// "Whatever the neighbours draw, a berth gets at least that first part and
    /// never above its cap, and the allotments never pass the limit."
    fn law<S: Side>(random: &mut Random) -> Result<&'static str, String> {
        let column = accepted(random);
        let (answer, after) = Self::run::<S>(&column);
        if answer != 0 {
            return Err(format!("{column:?} is refused with {answer}"));
        }
        match law_of(&column, &after) {
            None if column.wanted() < column.limit.into() => Ok("berths: limit left over"),
            None => Ok("berths: limit used up"),
            Some(broken) => Err(format!("{broken}: {column:?}, {after:?}")),
        }
    }
}

/// What does not hold of the berths after an accepted allotment.
fn law_of(column: &Column, after: &[Berth]) -> Option<&'static str> {
    let limit = i64::from(column.limit);
    let sum: i64 = after.iter().map(|berth| i64::from(berth.allotment)).sum();
    if sum > limit {
        return Some("the allotments pass the limit");
    }
    if sum != limit.min(column.wanted()) {
        return Some("something is held back");
    }
    let mut some_wants_more = false;
    for (berth, before) in after.iter().zip(&column.berths) {
        let demand = berth.demand.max(0);
        let first = demand.min(berth.guarantee);
        let kept = Berth {
            allotment: before.allotment,
            ..*berth
        };
        if kept != *before {
            return Some("not only allotments change");
        }
        if berth.allotment < first {
            return Some("less than the first part");
        }
        if berth.allotment > berth.cap {
            return Some("above the cap");
        }
        if berth.allotment > demand {
            return Some("above the demand");
        }
        if some_wants_more && berth.allotment > first {
            return Some("more than the first part behind one that wants more");
        }
        some_wants_more |= berth.allotment < demand.min(berth.cap);
    }
    None
}

impl Column {
    fn sum(&self) -> i64 {
        let guarantees = self.berths.iter().map(|berth| i64::from(berth.guarantee));
        guarantees.sum()
    }

    /// What all berths want, up to their caps.
    fn wanted(&self) -> i64 {
        let wanted = |berth: &Berth| i64::from(berth.demand.max(0).min(berth.cap));
        self.berths.iter().map(wanted).sum()
    }

    fn wrong(&self) -> bool {
        self.limit < 0 || self.berths.iter().any(wrong)
    }
}

fn wrong(berth: &Berth) -> bool {
    berth.guarantee < 0 || berth.cap < 0 || berth.guarantee > berth.cap
}

/// A column that is accepted, of one scale: small numbers meet more often.
fn accepted(random: &mut Random) -> Column {
    let top = random.pick(&[0, 3, 12, 40, 1_000, 100_000, i32::MAX - 1]);
    let up_to = |random: &mut Random, top: i32| random.below(top as u64 + 1) as i32;
    let length = match random.below(4) {
        0 => random.pick(&[1, 2, MOST]),
        _ => 1 + random.length(MOST),
    };
    let mut limit = up_to(random, top);
    if random.one_in(4) {
        limit = i32::MAX;
    }
    let mut left = limit;
    let share = (limit / length as i32).saturating_mul(2);
    let mut berths = Vec::new();
    for _ in 0..length {
        let guarantee = match random.below(32) {
            0..8 => 0,
            8 => left,
            _ => up_to(random, left.min(share)),
        };
        left -= guarantee;
        let cap = match random.below(8) {
            0 => guarantee,
            1 => i32::MAX,
            _ => guarantee + up_to(random, (i32::MAX - guarantee).min(top)),
        };
        let demand = match random.below(12) {
            0 => i32::MAX,
            1 => i32::MIN,
            2 => -up_to(random, top),
            3 => guarantee,
            4 => cap,
            5 => random.power(),
            6 => up_to(random, guarantee),
            _ => up_to(random, top.saturating_mul(2).min(i32::MAX - 1)),
        };
        berths.push(Berth {
            guarantee,
            cap,
            demand,
            allotment: random.power(),
        });
    }
    Column { limit, berths }
}

/// A limit next to the guarantees' sum, where 32 bits hold it.
fn limit_around(sum: i64, random: &mut Random) -> i32 {
    let around = sum + random.pick(&[-1, 0, 0, 1]);
    i32::try_from(around).unwrap_or(i32::MAX)
}

/// Another number at one berth, most of them wrong.
fn spoil(random: &mut Random, column: &mut Column) {
    let last = column.berths.len() - 1;
    let place = match random.one_in(3) {
        true => last,
        false => random.length(last + 1),
    };
    let berth = &mut column.berths[place];
    match random.below(7) {
        0 => berth.guarantee = random.pick(&[-1, i32::MIN]),
        1 => berth.cap = random.pick(&[-1, i32::MIN]),
        2 => berth.guarantee = berth.cap.saturating_add(1),
        3 => berth.guarantee = random.power(),
        4 => berth.cap = random.power(),
        5 => (berth.guarantee, berth.cap) = (i32::MAX, i32::MAX),
        _ => {
            // Many of them pass 32 bits together.
            let great = random.pick(&[i32::MAX, 1 << 30]);
            for berth in &mut column.berths {
                (berth.guarantee, berth.cap) = (great, great);
            }
        }
    }
}

#[cfg(test)]
mod tests {
    use super::*;
    use crate::sides::Plain;
    use plain::berths::fault;

    fn law<const FAULT: u8>() -> Result<(), String> {
        let mut random = Random::new(1);
        let mut law = |_| Berths::law::<Plain<FAULT>>(&mut random).map(|_| ());
        (0..10_000).try_for_each(&mut law)
    }

    #[test]
    fn laws_hold_of_plain_and_of_no_blunder() {
        assert_eq!(law::<{ fault::NONE }>(), Ok(()));
        let broken = [
            law::<{ fault::FIRST_PART_DROPPED }>(),
            law::<{ fault::CAP_BEYOND_FIRST_PART }>(),
            law::<{ fault::ORDER_REVERSED }>(),
            law::<{ fault::NEGATIVE_DEMAND }>(),
            law::<{ fault::EQUALITY_REFUSED }>(),
            law::<{ fault::HOLDS_GUARANTEES_BACK }>(),
            law::<{ fault::DEMAND_PASSED }>(),
        ];
        for (place, broken) in broken.iter().enumerate() {
            assert!(broken.is_err(), "{place}");
        }
    }
}
