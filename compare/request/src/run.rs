//! The differential test: fixed sweeps first, then requests on meters of random
//! histories until the requests or the time are used up.

use crate::apdu::{ACTION, ATTRIBUTES, GET, METHODS, SET, data, request};
use crate::counts::Counts;
use crate::options::Options;
use crate::random::Random;
use crate::sides::{Compared, Difference, Sides};
use crate::{field, generate, meter};
use pillar::{ANSWER_BUFFER, Settings};
use std::time::Instant;

/// A difference, and how many requests were compared before it.
pub struct Found {
    pub difference: Box<Difference>,
    pub requests: u64,
}

/// Runs the test; `FAULT` is the blunder planted in plain, 0 for none.
pub fn run<const FAULT: u8>(options: &Options) -> Result<Counts, Box<Found>> {
    let mut sides = Sides::<FAULT>::new(meter::fresh(BUSY));
    match compare(&mut sides, options) {
        Ok(()) => Ok(sides.counts),
        Err(difference) => Err(Box::new(Found {
            difference,
            requests: sides.counts.requests,
        })),
    }
}

fn compare<const FAULT: u8>(sides: &mut Sides<FAULT>, options: &Options) -> Compared<()> {
    let begin = Instant::now();
    let enough = |sides: &Sides<FAULT>| {
        sides.counts.requests >= options.requests || begin.elapsed() >= options.time
    };
    sweep(sides, enough)?;
    let mut random = Random::new(options.seed);
    while !enough(sides) {
        history(sides, &mut random)?;
    }
    Ok(())
}

const BUSY: Settings = Settings {
    mode: 4,
    threshold: 3000,
    over: 0x0102,
    under: 0x0304,
    clock: 1000,
};

/// Requests on one meter, with calls between them that make its history.
fn history<const FAULT: u8>(sides: &mut Sides<FAULT>, random: &mut Random) -> Compared<()> {
    let page = meter::fresh(meter::settings(random));
    sides.begin(page, meter::table(random));
    for _ in 0..random.below(60) {
        for _ in 0..random.below(4) {
            let (kind, numbers) = meter::call(random, &sides.page, sides.table());
            sides.call(kind, numbers)?;
        }
        if random.one_in(8) {
            let page = meter::patched(random, &sides.page);
            if pillar::check(&page, sides.table()).is_ok() {
                sides.page = page;
            }
        }
        for _ in 0..1 + random.below(6) {
            let request = generate::draw(random, &sides.page);
            sides.request(&request, generate::size(random))?;
        }
        if random.one_in(2) {
            let page = meter::damaged(random, &sides.page);
            let request = generate::draw(random, &sides.page);
            sides.request_on(&page, &request, generate::size(random))?;
        }
        if random.one_in(8) {
            let request = generate::draw(random, &sides.page);
            sides.request_under(&meter::table(random), &request)?;
        }
    }
    Ok(())
}

/// On three meters, of each row's requests: every value at every byte, every length
/// to 64 bytes, every size of the answer buffer to 64, and pages that are refused.
fn sweep<const FAULT: u8>(
    sides: &mut Sides<FAULT>,
    enough: impl Fn(&Sides<FAULT>) -> bool,
) -> Compared<()> {
    for (mode, switch, profile) in [(4, 1, true), (0, 1, false), (1, 0, false), (2, 2, false)] {
        busy_meter(sides, mode, switch, profile)?;
        let page = sides.page;
        for request in requests() {
            if enough(sides) {
                return Ok(());
            }
            for place in 0..request.len() {
                for value in 0..=255 {
                    let mut other = request.clone();
                    other[place] = value;
                    sides.request_on(&page, &other, ANSWER_BUFFER)?;
                }
            }
            for length in 0..64 {
                let mut other = request.clone();
                other.resize(length, 0);
                sides.request_on(&page, &other, ANSWER_BUFFER)?;
            }
            let (mut pair, mut unsound) = (page, page);
            pair[0] ^= 1;
            unsound[field::MODE] = 7;
            for page in [&page[..], &page[1..], &pair, &unsound] {
                for request in [&request[..], &request[1..], &[]] {
                    for size in 0..64 {
                        sides.request_on(page, request, size)?;
                    }
                }
            }
        }
    }
    Ok(())
}

/// Registers with bits, filters, and an emergency profile where one is wanted.
fn busy_meter<const FAULT: u8>(
    sides: &mut Sides<FAULT>,
    mode: u8,
    switch: u8,
    profile: bool,
) -> Compared<()> {
    sides.begin(meter::fresh(BUSY), Vec::new());
    field::put_alarms(&mut sides.page, 0x0102_0304);
    field::put(&mut sides.page, field::ERRORS, 0x1112_1314);
    sides.call(10, [0x2122_2324, 0, 0, 0, 0])?;
    sides.call(11, [0x3132_3334, 0, 0, 0, 0])?;
    if profile {
        sides.call(16, [1, 7 << 16, 0, 0, 0])?;
        sides.call(17, [7, 1500, 0, 300, 0])?;
    }
    sides.call(1, [2000, 0, 0, 0, 0])?;
    sides.page[field::MODE] = mode;
    sides.page[field::SWITCH] = switch;
    Ok(())
}

/// A whole request of each row, and a method without data.
fn requests() -> Vec<Vec<u8>> {
    let mut requests = Vec::new();
    for row in &ATTRIBUTES {
        requests.push(request(GET, 0xc1, row.bytes, &[]));
        requests.push(request(SET, 0xc1, row.bytes, &data(row.tag, 5)));
    }
    for row in &METHODS {
        requests.push(request(ACTION, 0xc1, row.bytes, &data(row.tag, 0)));
        requests.push(request(ACTION, 0xc1, row.bytes, &[]));
    }
    requests
}
