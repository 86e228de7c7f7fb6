//! "Energy of a day, exactly" (02, A11): the energy of samples, and joins.

use crate::random::Random;
use crate::run::{Edge, Subject};
use crate::sides::Side;
use pillar::harbour::{Day, Energy};

/// The energy of a day's samples.
pub struct Samples;

/// The join of two days.
pub struct Joins;

const SAMPLES: usize = 86_400;
const WATT_HOUR: u64 = 3_600;
const MOST_JOINED: u64 = 1 << 53;

/// What the day holds that a function is lent, so that a refusal shows.
const BEFORE: Day = day((1, 2), (3, 4));

// ---- Samples --------------------------------------------------------------

impl Subject for Samples {
    type Case = Vec<i32>;
    type Left = Day;

    const NAME: &'static str = "energy_of_day";
    const ANSWERS: &'static [u32] = &[0, 25];
    const EDGES: &'static [Edge<Vec<i32>>] = &[
        ("no sample", |samples, answer| {
            answer == 0 && samples.is_empty()
        }),
        ("86,400 samples", |samples, answer| {
            answer == 0 && samples.len() == SAMPLES
        }),
        ("86,401 samples", |samples, answer| {
            answer == 25 && samples.len() == SAMPLES + 1
        }),
        ("the lowest power", |samples, answer| {
            answer == 0 && samples.contains(&i32::MIN)
        }),
        ("a day of the lowest power", |samples, _| {
            samples.len() == SAMPLES && samples.iter().all(|power| *power == i32::MIN)
        }),
        ("a day of the highest power", |samples, _| {
            samples.len() == SAMPLES && samples.iter().all(|power| *power == i32::MAX)
        }),
        ("import and export", |samples, answer| {
            let import = samples.iter().any(|power| *power > 0);
            answer == 0 && import && samples.iter().any(|power| *power < 0)
        }),
        ("whole watt-hours", |samples, answer| {
            let [import, _] = directions(samples);
            answer == 0 && import > 0 && import.is_multiple_of(WATT_HOUR.into())
        }),
        ("one watt-second short of a watt-hour", |samples, answer| {
            let [_, export] = directions(samples);
            answer == 0 && export % u128::from(WATT_HOUR) == 3599
        }),
    ];
    const LAWS: &'static [&'static str] = &["days: cut and joined", "days: one piece"];

    fn fixed() -> Vec<Vec<i32>> {
        let lengths = [SAMPLES - 1, SAMPLES, SAMPLES + 1, SAMPLES + 2, 2 * SAMPLES];
        let powers = [i32::MIN, -1, 1, i32::MAX];
        let days = lengths.map(|length| powers.map(|power| vec![power; length]));
        let mut fixed = days.concat();
        fixed.extend((0..20).map(|length| vec![-1; length]));
        fixed
    }

    fn draw(random: &mut Random) -> Vec<i32> {
        let length = match random.below(10_000) {
            0 => SAMPLES,
            1 => SAMPLES + 1 + random.length(9),
            2 => random.length(SAMPLES),
            3..200 => random.length(1_000),
            _ => random.length(40),
        };
        samples(random, length)
    }

    fn run<S: Side>(samples: &Vec<i32>) -> (u32, Day) {
        let mut day = BEFORE;
        let answer = S::energy_of_day(samples, &mut day);
        (answer, day)
    }

    /// "Days and berths may be joined, and the joined pair is that of all samples
    /// together."
    fn law<S: Side>(random: &mut Random) -> Result<&'static str, String> {
        let length = random.length(60);
        let samples = samples(random, length);
        let mut pieces = Vec::new();
        let mut rest = &samples[..];
        while !rest.is_empty() {
            let (piece, behind) = rest.split_at(1 + random.length(rest.len()));
            pieces.push(accepted(Self::run::<S>(&piece.to_vec()))?);
            rest = behind;
        }
        let several = pieces.len() > 1;
        let joined = joined::<S>(pieces, random).unwrap_or(Ok(Day::default()));
        let whole = accepted(Self::run::<S>(&samples))?;
        if joined != Ok(whole) || watt_seconds(whole) != directions(&samples) {
            return Err(format!("{samples:?} is {whole:?}, in pieces {joined:?}"));
        }
        Ok(match several {
            true => "days: cut and joined",
            false => "days: one piece",
        })
    }
}

fn accepted((answer, day): (u32, Day)) -> Result<Day, String> {
    match answer {
        0 => Ok(day),
        refusal => Err(format!("refused with {refusal}")),
    }
}

fn samples(random: &mut Random, length: usize) -> Vec<i32> {
    let scale = random.below(6);
    let sample = |random: &mut Random| match scale {
        0 => random.pick(&[i32::MIN, i32::MIN + 1, i32::MAX, -1, 0, 1]),
        1 => random.pick(&[-3600, -1800, 0, 1800, 3600]),
        2 => random.below(20_000) as i32 - 5_000,
        3 => random.below(20_000) as i32,
        4 => -(random.below(20_000) as i32),
        _ => random.power(),
    };
    (0..length).map(|_| sample(random)).collect()
}

/// Watt-seconds of import and export, exactly.
fn directions(samples: &[i32]) -> [u128; 2] {
    let powers = || samples.iter().map(|power| i128::from(*power));
    let import: i128 = powers().map(|power| power.max(0)).sum();
    let export: i128 = powers().map(|power| power.min(0)).sum();
    [import as u128, -export as u128]
}

fn watt_seconds(day: Day) -> [u128; 2] {
    [day.import, day.export].map(|energy| {
        u128::from(energy.watt_hours) * u128::from(WATT_HOUR) + u128::from(energy.watt_seconds)
    })
}

// ---- Joins ----------------------------------------------------------------

impl Subject for Joins {
    type Case = (Day, Day);
    type Left = Day;

    const NAME: &'static str = "energy_join";
    const ANSWERS: &'static [u32] = &[0, 26, 27];
    const EDGES: &'static [Edge<(Day, Day)>] = &[
        ("a carry in import", |days, answer| {
            answer == 0 && seconds(days)[0] >= WATT_HOUR
        }),
        ("a carry in export", |days, answer| {
            answer == 0 && seconds(days)[1] >= WATT_HOUR
        }),
        ("remainders of 3,600 together", |days, answer| {
            answer == 0 && seconds(days).contains(&WATT_HOUR)
        }),
        ("remainders of 3,599 together", |days, answer| {
            answer == 0 && seconds(days).contains(&(WATT_HOUR - 1))
        }),
        ("a remainder of 3,600, own import", |days, answer| {
            alone(days, answer, days.0.import)
        }),
        ("a remainder of 3,600, own export", |days, answer| {
            alone(days, answer, days.0.export)
        }),
        ("a remainder of 3,600, other import", |days, answer| {
            alone(days, answer, days.1.import)
        }),
        ("a remainder of 3,600, other export", |days, answer| {
            alone(days, answer, days.1.export)
        }),
        ("26 where 27 holds too", |days, answer| {
            answer == 26 && hours(days).iter().any(|hours| *hours > MOST_JOINED.into())
        }),
        ("2^53 watt-hours of import", |days, answer| {
            answer == 0 && whole(days)[0] == MOST_JOINED.into()
        }),
        ("2^53 watt-hours of export", |days, answer| {
            answer == 0 && whole(days)[1] == MOST_JOINED.into()
        }),
        ("27 by import alone", |days, answer| {
            answer == 27 && whole(days)[1] <= MOST_JOINED.into()
        }),
        ("27 by export alone", |days, answer| {
            answer == 27 && whole(days)[0] <= MOST_JOINED.into()
        }),
        ("27 by the carry alone", |days, answer| {
            answer == 27 && hours(days).iter().all(|hours| *hours <= MOST_JOINED.into())
        }),
        ("27 by a sum that is good in 64 bits", |days, answer| {
            let good = |hours: &u128| u128::from(*hours as u64) <= MOST_JOINED.into();
            answer == 27 && whole(days).iter().all(good)
        }),
    ];
    const LAWS: &'static [&'static str] = &["joins: in any order", "joins: refused in any order"];

    fn fixed() -> Vec<(Day, Day)> {
        let hours = [
            0,
            1,
            MOST_JOINED - 1,
            MOST_JOINED,
            MOST_JOINED + 1,
            u64::MAX,
        ];
        let seconds = [0, 1, 1800, 3598, 3599, 3600, 3601, u64::MAX];
        let energies: Vec<_> = hours
            .iter()
            .flat_map(|&hours| seconds.map(|seconds| (hours, seconds)))
            .collect();
        let mut fixed = Vec::new();
        for &first in &energies {
            for &second in &energies {
                fixed.push((day(first, (7, 7)), day(second, (8, 8))));
                fixed.push((day((7, 7), first), day((8, 8), second)));
                fixed.push((day(first, second), day((7, 7), (8, 8))));
            }
        }
        fixed
    }

    fn draw(random: &mut Random) -> (Day, Day) {
        let mut first = any_day(random);
        let mut second = any_day(random);
        match random.below(8) {
            0 => fill(&mut first.import, second.import, random),
            1 => fill(&mut first.export, second.export, random),
            2 => fill(&mut second.import, first.import, random),
            3 => fill(&mut second.export, first.export, random),
            _ => {}
        }
        if random.one_in(8) {
            let place = random.pick(&[0, 1, 2, 3]);
            let seconds = random.any();
            let seconds = random.pick(&[3600, 3600, 3601, 7199, 1 << 32, u64::MAX, seconds]);
            let energies = [
                &mut first.import,
                &mut first.export,
                &mut second.import,
                &mut second.export,
            ];
            energies[place as usize].watt_seconds = seconds;
        }
        (first, second)
    }

    fn run<S: Side>((first, second): &(Day, Day)) -> (u32, Day) {
        let mut day = *first;
        let answer = S::join(&mut day, second);
        (answer, day)
    }

    /// Days with good remainders, joined in any bracketing, are all their energy,
    /// or are refused with 27 in every bracketing.
    fn law<S: Side>(random: &mut Random) -> Result<&'static str, String> {
        let count = 2 + random.length(7);
        let scale = random.pick(&[1 << 20, MOST_JOINED / 8, MOST_JOINED / 2]);
        let days: Vec<_> = (0..count).map(|_| good_day(random, scale)).collect();
        let mut exact = [0; 2];
        for day in &days {
            let [import, export] = watt_seconds(*day);
            exact = [exact[0] + import, exact[1] + export];
        }
        let hour = u128::from(WATT_HOUR);
        let refused = exact
            .iter()
            .any(|energy| energy / hour > MOST_JOINED.into());
        for _ in 0..3 {
            let joined = joined::<S>(days.clone(), random).expect("there are days");
            let holds = match joined {
                Ok(day) => {
                    let seconds = [day.import.watt_seconds, day.export.watt_seconds];
                    let below = seconds.iter().all(|seconds| *seconds < WATT_HOUR);
                    !refused && below && watt_seconds(day) == exact
                }
                Err(answer) => refused && answer == 27,
            };
            if !holds {
                return Err(format!("{days:?} joined is {joined:?}"));
            }
        }
        Ok(match refused {
            true => "joins: refused in any order",
            false => "joins: in any order",
        })
    }
}

/// The days joined in a random bracketing, or the first refusal; none of no day.
fn joined<S: Side>(mut days: Vec<Day>, random: &mut Random) -> Option<Result<Day, u32>> {
    while days.len() > 1 {
        let place = random.length(days.len() - 1);
        let other = days.remove(place + 1);
        let answer = S::join(&mut days[place], &other);
        if answer != 0 {
            return Some(Err(answer));
        }
    }
    days.pop().map(Ok)
}

/// Whether it is this remainder of exactly 3,600 that refuses a join.
fn alone(days: &(Day, Day), answer: u32, energy: Energy) -> bool {
    let (first, second) = days;
    let all = [first.import, first.export, second.import, second.export];
    let over = all.iter().filter(|each| each.watt_seconds >= WATT_HOUR);
    answer == 26 && energy.watt_seconds == WATT_HOUR && over.count() == 1
}

/// The watt-seconds of both days, import and export, where they are remainders.
fn seconds((first, second): &(Day, Day)) -> [u64; 2] {
    let sum = |first: Energy, second: Energy| first.watt_seconds.wrapping_add(second.watt_seconds);
    [
        sum(first.import, second.import),
        sum(first.export, second.export),
    ]
}

/// The watt-hours of both days, import and export, without what the remainders make.
fn hours((first, second): &(Day, Day)) -> [u128; 2] {
    let sum = |first: Energy, second: Energy| {
        u128::from(first.watt_hours) + u128::from(second.watt_hours)
    };
    [
        sum(first.import, second.import),
        sum(first.export, second.export),
    ]
}

/// The joined whole watt-hours.
fn whole(days: &(Day, Day)) -> [u128; 2] {
    let [first, second] = [days.0, days.1].map(watt_seconds);
    let whole = |first, second| (first + second) / u128::from(WATT_HOUR);
    [whole(first[0], second[0]), whole(first[1], second[1])]
}

fn good_day(random: &mut Random, hours: u64) -> Day {
    let mut energy = || {
        let seconds = random.below(WATT_HOUR);
        (
            random.below(hours),
            random.pick(&[0, 1, 1800, 3599, seconds]),
        )
    };
    day(energy(), energy())
}

/// Good remainders, and mostly good watt-hours.
fn any_day(random: &mut Random) -> Day {
    let mut any = good_day(random, MOST_JOINED / 2);
    if random.one_in(4) {
        let hours = random.any();
        let hours = random.pick(&[0, MOST_JOINED, MOST_JOINED + 1, u64::MAX, hours]);
        let energy = match random.one_in(2) {
            true => &mut any.import,
            false => &mut any.export,
        };
        energy.watt_hours = hours;
    }
    any
}

/// Brings a sum of watt-hours, without what the remainders make, close to 2^53, or
/// to 2^64.
fn fill(energy: &mut Energy, other: Energy, random: &mut Random) {
    let sum = random.pick(&[MOST_JOINED, MOST_JOINED, 0, 5]);
    let around = random.pick(&[0, 1, 2, u64::MAX]);
    energy.watt_hours = sum.wrapping_sub(around).wrapping_sub(other.watt_hours);
    if random.one_in(2) && other.watt_seconds < WATT_HOUR {
        let short = WATT_HOUR - 1 - other.watt_seconds;
        energy.watt_seconds = random.pick(&[short, (short + 1) % WATT_HOUR]);
    }
}

const fn day(import: (u64, u64), export: (u64, u64)) -> Day {
    Day {
        import: energy(import),
        export: energy(export),
    }
}

const fn energy((watt_hours, watt_seconds): (u64, u64)) -> Energy {
    Energy {
        watt_hours,
        watt_seconds,
    }
}

#[cfg(test)]
mod tests {
    use super::*;
    use crate::sides::Plain;
    use plain::energy::fault;

    fn laws<const FAULT: u8>() -> Result<(), String> {
        let mut random = Random::new(1);
        for _ in 0..10_000 {
            Samples::law::<Plain<FAULT>>(&mut random)?;
            Joins::law::<Plain<FAULT>>(&mut random)?;
        }
        Ok(())
    }

    #[test]
    fn laws_hold_of_plain_and_of_no_blunder() {
        assert_eq!(laws::<{ fault::NONE }>(), Ok(()));
        let broken = [
            laws::<{ fault::LOWEST_LOST }>(),
            laws::<{ fault::LOWEST_CUT }>(),
            laws::<{ fault::DIRECTIONS_CANCEL }>(),
            laws::<{ fault::DIRECTIONS_EXCHANGED }>(),
            laws::<{ fault::CARRY_DROPPED }>(),
            laws::<{ fault::ANY_JOINED_EXPORT }>(),
            laws::<{ fault::ANY_JOINED_IMPORT }>(),
        ];
        for (place, broken) in broken.iter().enumerate() {
            assert!(broken.is_err(), "{place}");
        }
    }
}
