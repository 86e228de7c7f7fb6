//! "The berth tariff" (02, A12).

use crate::random::Random;
use crate::run::{Edge, Subject};
use crate::sides::Side;
use pillar::harbour::{Day, Energy, RATES};

pub struct Bills;

#[derive(Clone, Debug)]
pub struct Given {
    prices: [u32; RATES],
    imports: [Energy; RATES],
    rest: u32,
}

const HIGHEST_PRICE: u32 = 1_000_000;
const KILOWATT_HOUR: u32 = 3_600_000;
const MOST_BILLED: u64 = 1 << 31;
const WATT_HOUR: u64 = 3_600;

/// What the cents hold before a bill, so that a refusal shows.
const BEFORE: u64 = 0x5a5a;

impl Subject for Bills {
    type Case = Given;
    type Left = (u64, u32);

    const NAME: &'static str = "tariff_bill";
    const ANSWERS: &'static [u32] = &[0, 28, 29, 30];
    const EDGES: &'static [Edge<Given>] = &[
        ("the highest price", |given, answer| {
            answer == 0 && given.prices.contains(&HIGHEST_PRICE)
        }),
        (
            "28 by one more, at the first rate alone",
            |given, answer| answer == 28 && given.price_over_at(0),
        ),
        ("28 by one more, at the last rate alone", |given, answer| {
            answer == 28 && given.price_over_at(RATES - 1)
        }),
        ("28 where 29 and 30 hold too", |given, answer| {
            answer == 28 && given.rest_over() && given.import_over()
        }),
        ("the greatest rest", |given, answer| {
            answer == 0 && given.rest == KILOWATT_HOUR - 1
        }),
        ("29 by one more", |given, answer| {
            answer == 29 && given.rest == KILOWATT_HOUR && !given.import_over()
        }),
        ("29 where 30 holds too", |given, answer| {
            answer == 29 && given.import_over()
        }),
        ("2^31 watt-hours", |given, answer| {
            let most = |import: &Energy| import.watt_hours == MOST_BILLED;
            answer == 0 && given.imports.iter().any(most)
        }),
        (
            "30 by one watt-hour more, at the last rate alone",
            |given, answer| {
                let more = given.imports[RATES - 1].watt_hours == MOST_BILLED + 1;
                answer == 30 && more && given.import_over_at(RATES - 1)
            },
        ),
        (
            "30 by a remainder of 3,600, at the last rate alone",
            |given, answer| {
                let seconds = given.imports[RATES - 1].watt_seconds == WATT_HOUR;
                answer == 30 && seconds && given.import_over_at(RATES - 1)
            },
        ),
        ("30 at the first rate alone", |given, answer| {
            answer == 30 && given.import_over_at(0)
        }),
        ("a remainder of 3,599", |given, answer| {
            let most = |import: &Energy| import.watt_seconds == WATT_HOUR - 1;
            answer == 0 && given.imports.iter().any(most)
        }),
        ("a sum above 64 bits", |given, answer| {
            answer == 0 && given.exact() > u64::MAX.into()
        }),
        ("a cent by the incoming rest", |given, answer| {
            let whole = u128::from(KILOWATT_HOUR);
            let without = given.exact() - u128::from(given.rest);
            answer == 0 && given.exact() / whole > without / whole
        }),
        ("a cent by the rests of the rates", |given, answer| {
            let whole = u128::from(KILOWATT_HOUR);
            let by_rate: u128 = given.charges().map(|charge| charge / whole).iter().sum();
            answer == 0 && given.rest == 0 && given.exact() / whole > by_rate
        }),
        ("no rest is left", |given, answer| {
            let whole = u128::from(KILOWATT_HOUR);
            answer == 0 && given.exact() > 0 && given.exact().is_multiple_of(whole)
        }),
        ("the highest bill", |given, answer| {
            let most = Energy {
                watt_hours: MOST_BILLED,
                watt_seconds: WATT_HOUR - 1,
            };
            let rates = given.prices == [HIGHEST_PRICE; RATES] && given.imports == [most; RATES];
            answer == 0 && rates && given.rest == KILOWATT_HOUR - 1
        }),
    ];
    const LAWS: &'static [&'static str] =
        &["bills: one", "bills: a row", "bills: a row, and joined"];

    fn fixed() -> Vec<Given> {
        let prices = [0, 1, HIGHEST_PRICE, HIGHEST_PRICE + 1, u32::MAX];
        let hours = [0, 1, MOST_BILLED, MOST_BILLED + 1, u64::MAX];
        let seconds = [0, 1, 3599, 3600, 3601, u64::MAX];
        let rests = [0, 1, KILOWATT_HOUR - 1, KILOWATT_HOUR, u32::MAX];
        let mut fixed = Vec::new();
        for rate in 0..=RATES {
            for price in prices {
                for watt_hours in hours {
                    for watt_seconds in seconds {
                        for rest in rests {
                            fixed.push(given_at(
                                rate,
                                price,
                                Energy {
                                    watt_hours,
                                    watt_seconds,
                                },
                                rest,
                            ));
                        }
                    }
                }
            }
        }
        fixed
    }

    fn draw(random: &mut Random) -> Given {
        let mut given = accepted(random);
        for _ in 0..random.below(3) {
            if random.one_in(2) {
                spoil(random, &mut given);
            }
        }
        given
    }

    fn run<S: Side>(given: &Given) -> (u32, (u64, u32)) {
        let (mut rest, mut cents) = (given.rest, BEFORE);
        let answer = S::bill(&given.prices, &given.imports, &mut rest, &mut cents);
        (answer, (cents, rest))
    }

    /// "Over any row of accepted bills at constant prices, the first with rest 0
    /// and each next with the rest before it, their sum and the last rest are the
    /// exact charge of all the energy." Where the imports of the row can be joined
    /// and billed at once, that bill is the same.
    fn law<S: Side>(random: &mut Random) -> Result<&'static str, String> {
        let first = accepted(random);
        let bills = 1 + random.length(6);
        let (mut sum, mut rest, mut exact) = (0_u128, 0, 0_u128);
        let mut whole = Some([Energy::default(); RATES]);
        let mut row = Vec::new();
        for _ in 0..bills {
            let given = Given {
                prices: first.prices,
                rest,
                ..accepted(random)
            };
            let (answer, (cents, next)) = Self::run::<S>(&given);
            if answer != 0 || next >= KILOWATT_HOUR {
                return Err(format!("{given:?} is {answer}, rest {next}"));
            }
            exact += given.charges().iter().sum::<u128>();
            sum += u128::from(cents);
            rest = next;
            whole = whole.and_then(|whole| all_joined::<S>(whole, given.imports));
            row.push(given);
        }
        if sum * u128::from(KILOWATT_HOUR) + u128::from(rest) != exact {
            return Err(format!("{row:?} is {sum} cents, rest {rest}"));
        }
        let at_once = whole.map(|imports| {
            Self::run::<S>(&Given {
                prices: first.prices,
                imports,
                rest: 0,
            })
        });
        match at_once {
            Some((0, (cents, last))) if (u128::from(cents), last) != (sum, rest) => Err(format!(
                "{row:?} is {sum} cents, rest {rest}, at once {cents}, rest {last}"
            )),
            _ if bills == 1 => Ok("bills: one"),
            Some((0, _)) => Ok("bills: a row, and joined"),
            _ => Ok("bills: a row"),
        }
    }
}

/// The imports of each rate joined, where they can be and are billed.
fn all_joined<S: Side>(
    mut imports: [Energy; RATES],
    others: [Energy; RATES],
) -> Option<[Energy; RATES]> {
    for (import, other) in imports.iter_mut().zip(others) {
        let [mut day, other] = [*import, other].map(|import| Day {
            import,
            export: Energy::default(),
        });
        if S::join(&mut day, &other) != 0 {
            return None;
        }
        *import = day.import;
    }
    let billed = imports
        .iter()
        .all(|import| import.watt_hours <= MOST_BILLED);
    billed.then_some(imports)
}

impl Given {
    /// What each rate costs, over 3,600,000.
    fn charges(&self) -> [u128; RATES] {
        std::array::from_fn(|rate| {
            let Energy {
                watt_hours,
                watt_seconds,
            } = self.imports[rate];
            let energy = u128::from(watt_hours) * u128::from(WATT_HOUR) + u128::from(watt_seconds);
            u128::from(self.prices[rate]) * energy
        })
    }

    fn exact(&self) -> u128 {
        u128::from(self.rest) + self.charges().iter().sum::<u128>()
    }

    fn rest_over(&self) -> bool {
        self.rest >= KILOWATT_HOUR
    }

    fn import_over(&self) -> bool {
        self.imports.iter().any(import_over)
    }

    /// Whether the one import that is not billed is of this rate.
    fn import_over_at(&self, rate: usize) -> bool {
        (0..RATES).all(|each| import_over(&self.imports[each]) == (each == rate))
    }

    /// Whether the one price that is too high is of this rate, by one cent.
    fn price_over_at(&self, rate: usize) -> bool {
        let over = |each: usize| self.prices[each] > HIGHEST_PRICE;
        self.prices[rate] == HIGHEST_PRICE + 1
            && (0..RATES).all(|each| over(each) == (each == rate))
    }
}

fn import_over(import: &Energy) -> bool {
    import.watt_hours > MOST_BILLED || import.watt_seconds >= WATT_HOUR
}

/// A price and an import at a rate, at all of them for `RATES`; small numbers at
/// the others.
fn given_at(rate: usize, price: u32, import: Energy, rest: u32) -> Given {
    let small = Energy {
        watt_hours: 17,
        watt_seconds: 23,
    };
    let at = |each: usize| each == rate || rate == RATES;
    Given {
        prices: std::array::from_fn(|each| if at(each) { price } else { 3 }),
        imports: std::array::from_fn(|each| if at(each) { import } else { small }),
        rest,
    }
}

fn accepted(random: &mut Random) -> Given {
    let scale = random.pick(&[1, 100, 10_000, 1_000_000, MOST_BILLED]);
    let prices = match random.below(4) {
        0 => [HIGHEST_PRICE; RATES],
        1 => std::array::from_fn(|_| random.below(100) as u32),
        2 => std::array::from_fn(|_| random.pick(&[0, 1000, 500, 250])),
        _ => std::array::from_fn(|_| random.below(u64::from(HIGHEST_PRICE) + 1) as u32),
    };
    let imports = std::array::from_fn(|_| Energy {
        watt_hours: match random.below(6) {
            0 => MOST_BILLED,
            1 => 0,
            _ => random.below(scale + 1),
        },
        watt_seconds: match random.below(4) {
            0 => random.pick(&[0, 3599]),
            1 => random.pick(&[0, 900, 1800]),
            _ => random.below(WATT_HOUR),
        },
    });
    let rest = match random.below(4) {
        0 => 0,
        1 => random.pick(&[1, KILOWATT_HOUR / 2, KILOWATT_HOUR - 1]),
        _ => random.below(KILOWATT_HOUR.into()) as u32,
    };
    Given {
        prices,
        imports,
        rest,
    }
}

fn spoil(random: &mut Random, given: &mut Given) {
    let rate = random.length(RATES);
    let any = random.any();
    match random.below(4) {
        0 => {
            let price = random.pick(&[HIGHEST_PRICE + 1, u32::MAX, any as u32]);
            given.prices[rate] = price;
        }
        1 => given.rest = random.pick(&[KILOWATT_HOUR, KILOWATT_HOUR + 1, u32::MAX, any as u32]),
        2 => {
            let hours = random.pick(&[MOST_BILLED + 1, 1 << 32, u64::MAX, any]);
            given.imports[rate].watt_hours = hours;
        }
        _ => {
            let seconds = random.pick(&[WATT_HOUR, WATT_HOUR + 1, u64::MAX, any]);
            given.imports[rate].watt_seconds = seconds;
        }
    }
}

#[cfg(test)]
mod tests {
    use super::*;
    use crate::sides::Plain;
    use plain::{energy, tariff::fault};

    fn law<const FAULT: u8>() -> Result<(), String> {
        let mut random = Random::new(1);
        let mut law = |_| Bills::law::<Plain<FAULT>>(&mut random).map(|_| ());
        (0..10_000).try_for_each(&mut law)
    }

    #[test]
    fn laws_hold_of_plain_and_of_no_blunder() {
        assert_eq!(law::<{ fault::NONE }>(), Ok(()));
        let broken = [
            law::<{ fault::REST_NOT_CARRIED }>(),
            law::<{ fault::LAST_RATE_LEFT_OUT }>(),
            law::<{ fault::RATES_EXCHANGED }>(),
            law::<{ fault::SUM_WRAPS }>(),
            law::<{ fault::ROUNDS }>(),
            law::<{ fault::WHOLE_CENTS_BY_RATE }>(),
            law::<{ fault::REMAINDERS_LEFT_OUT }>(),
            law::<{ fault::HIGHEST_PRICE_REFUSED }>(),
            law::<{ fault::MOST_BILLED_REFUSED }>(),
            law::<{ energy::fault::CARRY_DROPPED }>(),
        ];
        for (place, broken) in broken.iter().enumerate() {
            assert!(broken.is_err(), "{place}");
        }
    }
}
