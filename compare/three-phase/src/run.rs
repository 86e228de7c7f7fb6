//! The differential test: histories until the calls, the pages or the time are used
//! up, then fixed sweeps. The sweeps are always run whole, and the time does not
//! count them.

use crate::archive::Settings;
use crate::call::{Call, append_fresh};
use crate::counts::{Counts, Demand};
use crate::damage::damaged;
use crate::difference::Difference;
use crate::draw_table;
use crate::generate::{Generator, Profile};
use crate::random::Random;
use crate::sides::{Compared, Sides};
use crate::table::EventTable;
use plain::three_phase::{PAGE, RECORD};
use std::time::{Duration, Instant};

pub struct Plan {
    pub seed: u64,
    pub demand: Demand,
    pub time: Duration,
}

/// A difference and how far the run had come.
pub struct Found {
    pub difference: Box<Difference>,
    pub counts: Counts,
    pub place: String,
}

/// Runs the test; `FAULT` is the blunder planted in plain, 0 for none.
pub fn run<const FAULT: u8>(plan: &Plan) -> Result<Counts, Box<Found>> {
    let mut random = Random::new(plan.seed);
    let mut sides = match Sides::<FAULT>::new() {
        Ok(sides) => sides,
        Err(difference) => {
            return Err(Box::new(Found {
                difference,
                counts: Counts::default(),
                place: String::from("the start"),
            }));
        }
    };
    let begin = Instant::now();
    let mut histories = 0_u64;
    while wanted(&sides.counts, plan.demand) && begin.elapsed() < plan.time {
        let profile = random.pick(&Profile::ALL);
        histories += 1;
        if let Err(difference) = history(&mut sides, &mut random, profile, plan.demand) {
            let place = format!("history {histories} ({profile:?})");
            return Err(found(difference, &sides, place));
        }
    }
    // The calls of the sweeps don't stand for those that are drawn.
    let calls = sides.counts.calls;
    if let Err(difference) = sweep(&mut sides, &mut random) {
        return Err(found(difference, &sides, String::from("the sweep")));
    }
    sides.counts.calls = calls;
    Ok(sides.counts)
}

/// Whether a run is not yet through.
fn wanted(counts: &Counts, demand: Demand) -> bool {
    counts.calls < demand.calls || counts.pages < demand.pages
}

fn found<const FAULT: u8>(
    difference: Box<Difference>,
    sides: &Sides<FAULT>,
    place: String,
) -> Box<Found> {
    Box::new(Found {
        difference: difference.after(sides.history()),
        counts: sides.counts.clone(),
        place,
    })
}

/// One list of calls from a fresh meter and a table: call by call, with damaged
/// pages and other tables beside them, and then as a whole.
fn history<const FAULT: u8>(
    sides: &mut Sides<FAULT>,
    random: &mut Random,
    profile: Profile,
    demand: Demand,
) -> Compared<()> {
    let mut generator = Generator::new(profile);
    sides.take_table(draw_table::of_history(random));
    let settings = generator.settings(random);
    let mut list = Vec::new();
    append_fresh(settings, &mut list);
    if !sides.fresh(settings, buffer_length(random))? {
        let call = generator.call(random, &sides.page, &sides.table);
        call.append_to(&mut list);
        spoil(random, &mut list);
        return sides.replay(&list, buffer_length(random), None);
    }
    let mut patched = false;
    for _ in 0..generator.length(random) {
        if sides.counts.calls < demand.calls {
            patched |= step(sides, random, &mut generator, &mut list)?;
        }
        // Pages keep pace with the calls.
        while pages_due(&sides.counts, demand) {
            inspect_damaged(sides, random, &mut generator)?;
        }
    }
    let page = sides.page;
    let length = PAGE + random.pick(&[0, 0, 1, 100]);
    sides.replay(&list, length, (!patched).then_some(&page))?;
    spoil(random, &mut list);
    sides.replay(&list, buffer_length(random), None)
}

/// One call, sometimes after a patch of the page or beside another table. Answers
/// whether the page was patched.
fn step<const FAULT: u8>(
    sides: &mut Sides<FAULT>,
    random: &mut Random,
    generator: &mut Generator,
    list: &mut Vec<u8>,
) -> Compared<bool> {
    let mut patched = false;
    if random.one_in(generator.patches()) {
        let page = generator.patch(random, &sides.page, &sides.table);
        let call = generator.call(random, &sides.page, &sides.table);
        patched = sides.adopt(page, call)?;
    }
    let call = generator.call(random, &sides.page, &sides.table);
    sides.call(call)?;
    call.append_to(list);
    if random.one_in(16) {
        let table = draw_table::near(random, &sides.table);
        let call = generator.call(random, &sides.page, &table);
        sides.inspect_under(&table, call)?;
    }
    Ok(patched)
}

/// Whether the pages are behind the calls, by what is demanded of both.
fn pages_due(counts: &Counts, demand: Demand) -> bool {
    if counts.calls >= demand.calls {
        return counts.pages < demand.pages;
    }
    let due = u128::from(demand.pages) * u128::from(counts.calls) / u128::from(demand.calls);
    u128::from(counts.pages) < due
}

fn inspect_damaged<const FAULT: u8>(
    sides: &mut Sides<FAULT>,
    random: &mut Random,
    generator: &mut Generator,
) -> Compared<()> {
    let page = damaged(random, &sides.page, &sides.table);
    let call = generator.call(random, &sides.page, &sides.table);
    sides.counts.pages += 1;
    sides.inspect(&page, call)?;
    Ok(())
}

/// Mostly a page's length; else shorter or longer.
fn buffer_length(random: &mut Random) -> usize {
    if random.one_in(2) {
        return PAGE;
    }
    let any = random.below(PAGE);
    random.pick(&[PAGE - 1, PAGE + 1, PAGE + 442, 0, any])
}

/// Cuts a list, empties it or changes a byte of it; sometimes leaves it.
fn spoil(random: &mut Random, list: &mut Vec<u8>) {
    match random.below(11) {
        0 => list.clear(),
        1 => list.truncate(random.below(RECORD + 1)),
        2 => list.truncate(random.below(list.len() + 1)),
        3 => list.truncate(list.len() - 1),
        4 => list[0] = random.pick(&[1, 2, 15, 16, 17, 18, 255]),
        5 => list[random.below(RECORD)] = random.byte(),
        6 => {
            let place = random.below(list.len());
            list[place] = random.byte();
        }
        7 => {
            let record = random.below(list.len() / RECORD);
            list[record * RECORD] = random.pick(&[0, 1, 7, 16, 17]);
        }
        8 => list.extend(vec![0; random.below(RECORD + 1)]),
        9 => repeat_fresh(random, list),
        _ => {}
    }
}

/// The first record once more, before or behind any record: there it is no fresh,
/// but refused with 13.
fn repeat_fresh(random: &mut Random, list: &mut Vec<u8>) {
    let fresh = list[..RECORD].to_vec();
    let place = RECORD * random.below(list.len() / RECORD + 1);
    list.splice(place..place, fresh);
}

/// An own table that has two built-in codes with other bits.
const HARBOUR: [[u8; 4]; 5] = [
    [0, 2, 31, 255],
    [6, 1, 5, 7],
    [40, 2, 255, 0],
    [70, 3, 0, 31],
    [254, 1, 13, 13],
];

/// Every value at every byte of three pages, one of them with full logs and all
/// lines exceeded and one under an own table, every length, counts of alarms, and
/// the longest durations run to their end.
fn sweep<const FAULT: u8>(sides: &mut Sides<FAULT>, random: &mut Random) -> Compared<()> {
    let own = HARBOUR.as_flattened();
    for (table, rounds) in [(&[][..], 0), (own, 3), (&[][..], 40)] {
        sides.take_table(EventTable::of(table.to_vec()));
        busy_meter(sides, rounds)?;
        sweep_bytes(sides)?;
        sweep_lengths(sides, random)?;
    }
    sweep_alarms(sides)?;
    longest_runs(sides)
}

/// Events, moves and registers in all three logs, `rounds` times; L1, L3 and the sum
/// are then exceeded, L2 is not, and each of them has a Run.
fn busy_meter<const FAULT: u8>(sides: &mut Sides<FAULT>, rounds: usize) -> Compared<()> {
    let settings = Settings {
        mode: 5,
        thresholds: [1000, 2000, 3000, 4000],
        over: 2,
        under: 3,
        clock: 1000,
    };
    sides.fresh(settings, PAGE)?;
    let calls = [(9, 6), (9, 40), (9, 70), (2, 0), (15, 2), (5, 0), (10, 2)];
    for _ in 0..rounds {
        for (kind, number) in calls {
            sides.call(Call::of(kind, number))?;
        }
        sides.call(Call::sample([1001, 2000, 3001]))?;
        sides.call(Call::sample([1001, 2000, 3001]))?;
        sides.call(Call::sample([0, 0, 3001]))?;
        sides.call(Call::sample([0, 2001, 1000]))?;
    }
    Ok(())
}

fn sweep_bytes<const FAULT: u8>(sides: &mut Sides<FAULT>) -> Compared<()> {
    let page = sides.page;
    for place in 0..PAGE {
        for value in 0..=255 {
            let mut damaged = page;
            damaged[place] = value;
            sides.counts.swept += 1;
            sides.inspect(&damaged, Call::sample([0, 2001, 0]))?;
        }
    }
    Ok(())
}

fn sweep_lengths<const FAULT: u8>(sides: &mut Sides<FAULT>, random: &mut Random) -> Compared<()> {
    let page = sides.page;
    for length in 0..2 * PAGE + 2 {
        let mut bytes = page.to_vec();
        bytes.resize(length, random.byte());
        for kind in [1, 0, 16, 17, 18] {
            sides.counts.swept += 1;
            sides.inspect(&bytes, Call::of(kind, 0))?;
        }
    }
    Ok(())
}

/// Each count beside registers of 0 to 32 bits, from the lowest up and from the
/// highest down, and of one bit at each place.
fn sweep_alarms<const FAULT: u8>(sides: &mut Sides<FAULT>) -> Compared<()> {
    let page = sides.page;
    let lowest = (0..=32).map(|bits| ((1_u64 << bits) - 1) as u32);
    let registers = lowest.flat_map(|low| [low, low.reverse_bits()]);
    for alarms in registers.chain((0..32).map(|bit| 1 << bit)) {
        let mut damaged = page;
        crate::field::put_alarms(&mut damaged, alarms);
        for count in 0..=255 {
            damaged[crate::field::ALARM_COUNT] = count;
            sides.counts.swept += 1;
            sides.inspect(&damaged, Call::of(12, 0x1111_1111))?;
        }
    }
    Ok(())
}

/// "Over 86,400 taken" (01): its last sample but one, its last, and so with Under,
/// for each line by itself.
fn longest_runs<const FAULT: u8>(sides: &mut Sides<FAULT>) -> Compared<()> {
    const LONGEST: usize = 86_400;
    let settings = Settings {
        mode: 6,
        thresholds: [10, 10, 10, 12],
        over: LONGEST as u32,
        under: LONGEST as u32,
        clock: u32::MAX - LONGEST as u32,
    };
    for powers in [[11, 0, 0], [0, 11, 0], [0, 0, 11], [4, 4, 5], [11, 11, 11]] {
        let mut list = Vec::new();
        append_fresh(settings, &mut list);
        let turns = [
            (LONGEST - 1, powers),
            (1, powers),
            (LONGEST - 1, [0; 3]),
            (1, [0; 3]),
        ];
        for (samples, powers) in turns {
            for _ in 0..samples {
                Call::sample(powers).append_to(&mut list);
            }
            sides.counts.swept += 1;
            sides.replay(&list, PAGE, None)?;
        }
    }
    Ok(())
}
