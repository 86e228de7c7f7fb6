//! The differential test: fixed sweeps first, then histories until the calls
//! or the time are used up. The sweeps are always run whole, and the time counts
//! from their end: they take 0.5 seconds, 7 in a debug build.

use crate::call::{Call, fresh_record};
use crate::counts::{CALLS_PER_TABLE, Counts};
use crate::damage::damaged;
use crate::difference::Difference;
use crate::draw_table;
use crate::field;
use crate::generate::{Generator, Profile};
use crate::random::Random;
use crate::sides::{Compared, Sides};
use crate::sweep_table::sweep_tables;
use crate::table::EventTable;
use pillar::{PAGE, Settings};
use std::time::{Duration, Instant};

pub struct Plan {
    pub seed: u64,
    pub calls: u64,
    pub time: Duration,
}

/// A difference and how far the run had come.
pub struct Found {
    pub difference: Box<Difference>,
    pub counts: Counts,
    pub place: String,
}

/// Runs the test; `FAULT` is the blunder planted in plain, 0 for none.
pub fn run<const FAULT: u8>(plan: &Plan) -> Result<Counts, Box<Found>> {
    let mut random = Random::new(plan.seed);
    let mut sides = match Sides::<FAULT>::new() {
        Ok(sides) => sides,
        Err(difference) => return Err(found(difference, Counts::default(), "the start")),
    };
    if let Err(difference) = sweep(&mut sides, &mut random) {
        return Err(found(difference, sides.counts, "the sweep"));
    }
    // Its tables don't stand for those that are drawn.
    sides.counts.tables = 0;
    let begin = Instant::now();
    let mut histories = 0_u64;
    while sides.counts.calls < plan.calls && begin.elapsed() < plan.time {
        let profile = random.pick(&Profile::ALL);
        histories += 1;
        if let Err(difference) = history(&mut sides, &mut random, profile, plan.calls) {
            let place = format!("history {histories} ({profile:?})");
            return Err(found(difference, sides.counts, &place));
        }
        if let Err(difference) = tables(&mut sides, &mut random) {
            return Err(found(difference, sides.counts, "the tables"));
        }
    }
    Ok(sides.counts)
}

/// Tables that may be good or not, one for so many calls.
fn tables<const FAULT: u8>(sides: &mut Sides<FAULT>, random: &mut Random) -> Compared<()> {
    while sides.counts.tables < sides.counts.calls / CALLS_PER_TABLE {
        let table = draw_table::to_judge(random);
        sides.judge_table(&table)?;
    }
    Ok(())
}

fn found(difference: Box<Difference>, counts: Counts, place: &str) -> Box<Found> {
    Box::new(Found {
        difference,
        counts,
        place: String::from(place),
    })
}

/// One list of calls from a fresh meter and a table: call by call, with damaged
/// pages and other tables beside them, and then as a whole.
fn history<const FAULT: u8>(
    sides: &mut Sides<FAULT>,
    random: &mut Random,
    profile: Profile,
    calls: u64,
) -> Compared<()> {
    let mut generator = Generator::new(profile);
    sides.take_table(draw_table::of_history(random), call(1, 0))?;
    let settings = generator.settings(random);
    let mut list = Vec::new();
    fresh_record(settings).append_to(&mut list);
    if !sides.fresh(settings, buffer_length(random))? {
        let call = generator.call(random, &sides.page, &sides.table);
        call.append_to(&mut list);
        return sides.replay(&list, buffer_length(random), None);
    }
    let mut patched = false;
    for _ in 0..generator.length(random) {
        if sides.counts.calls >= calls {
            break;
        }
        if random.one_in(generator.patches()) {
            let page = generator.patch(random, &sides.page, &sides.table);
            let call = generator.call(random, &sides.page, &sides.table);
            patched |= sides.adopt(page, call)?;
        }
        let call = generator.call(random, &sides.page, &sides.table);
        sides.call(call)?;
        call.append_to(&mut list);
        if random.one_in(4) {
            let page = damaged(random, &sides.page, &sides.table);
            let call = generator.call(random, &sides.page, &sides.table);
            sides.inspect(&page, call)?;
        }
        if random.one_in(8) {
            let table = draw_table::near(random, &sides.table);
            let page = sides.page;
            let call = generator.call(random, &page, &table);
            sides.inspect_under(&table, &page, call)?;
        }
    }
    let page = sides.page;
    let length = PAGE + random.pick(&[0, 0, 1, 100]);
    sides.replay(&list, length, (!patched).then_some(&page))?;
    spoil(random, &mut list);
    sides.replay(&list, buffer_length(random), None)
}

/// Mostly a page's length; else shorter or longer.
fn buffer_length(random: &mut Random) -> usize {
    if random.one_in(2) {
        return PAGE;
    }
    let any = random.below(PAGE);
    random.pick(&[PAGE - 1, PAGE + 1, PAGE + 442, 0, any])
}

/// Cuts a list, empties it or changes a byte of it.
fn spoil(random: &mut Random, list: &mut Vec<u8>) {
    match random.below(8) {
        0 => list.clear(),
        1 => list.truncate(random.below(22)),
        2 => list.truncate(random.below(list.len() + 1)),
        3 => list.truncate(list.len() - 1),
        4 => list[0] = random.pick(&[1, 2, 15, 16, 17, 18, 255]),
        5 => list[random.below(21)] = random.byte(),
        6 => {
            let place = random.below(list.len());
            list[place] = random.byte();
        }
        _ => list.extend(vec![0; random.below(22)]),
    }
}

/// Tables first; then every value at every byte of four pages, one of them under an
/// own table, every length, counts of alarms, and the longest durations run to their
/// end.
fn sweep<const FAULT: u8>(sides: &mut Sides<FAULT>, random: &mut Random) -> Compared<()> {
    sweep_tables(sides, random)?;
    let own = HARBOUR.as_flattened();
    for (table, rounds, activation) in [
        (own, 4, None),
        (&[], 0, None),
        (&[], 4, Some(u32::MAX)),
        (&[], 40, Some(0)),
    ] {
        sides.take_table(EventTable::of(table.to_vec()), call(1, 0))?;
        busy_meter(sides, rounds, activation)?;
        sweep_bytes(sides)?;
        sweep_lengths(sides, random)?;
    }
    sweep_alarms(sides)?;
    longest_runs(sides)?;
    longest_profile(sides)
}

/// Events, moves and registers in all three logs, `rounds` times; then, where an
/// activation is given, three groups and a profile, which starts if it is past.
fn busy_meter<const FAULT: u8>(
    sides: &mut Sides<FAULT>,
    rounds: usize,
    activation: Option<u32>,
) -> Compared<()> {
    let settings = Settings {
        mode: 5,
        threshold: 3000,
        over: 2,
        under: 3,
        clock: 1000,
    };
    sides.fresh(settings, PAGE)?;
    let calls = [(9, 6), (9, 40), (9, 70), (2, 0), (15, 2), (5, 0), (10, 2)];
    // The reconnect arms the limiter, so both samples of Over come behind it.
    let calls = [&calls[..], &[(1, 3001), (1, 3001)]].concat();
    for (kind, number) in calls.repeat(rounds) {
        sides.call(call(kind, number))?;
    }
    let Some(activation) = activation else {
        return Ok(());
    };
    sides.call(GROUPS)?;
    sides.call(profile(activation, 300))?;
    sides.call(call(1, 0))
}

/// An own table that has two built-in codes with other bits.
const HARBOUR: [[u8; 4]; 5] = [
    [0, 2, 31, 255],
    [6, 1, 5, 7],
    [40, 2, 255, 0],
    [70, 3, 0, 31],
    [254, 1, 13, 13],
];

/// Three ids.
const GROUPS: Call = Call {
    kind: 16,
    numbers: [3, 0x0102_0007, 0xffff_0000, 0, 0],
};

fn profile(activation: u32, duration: u32) -> Call {
    Call {
        kind: 17,
        numbers: [7, 1000, activation, duration, 0],
    }
}

fn sweep_bytes<const FAULT: u8>(sides: &mut Sides<FAULT>) -> Compared<()> {
    let page = sides.page;
    for place in 0..PAGE {
        for value in 0..=255 {
            let mut damaged = page;
            damaged[place] = value;
            sides.inspect(&damaged, call(1, 0))?;
        }
    }
    Ok(())
}

fn sweep_lengths<const FAULT: u8>(sides: &mut Sides<FAULT>, random: &mut Random) -> Compared<()> {
    let page = sides.page;
    for length in 0..2 * PAGE + 2 {
        let mut bytes = page.to_vec();
        bytes.resize(length, random.byte());
        sides.inspect(&bytes, call(1, 0))?;
        sides.inspect(&bytes, call(18, 0))?;
    }
    Ok(())
}

/// Each count beside registers of 0 to 32 bits, from the lowest up and from the
/// highest down, and of one bit at each place.
fn sweep_alarms<const FAULT: u8>(sides: &mut Sides<FAULT>) -> Compared<()> {
    let page = sides.page;
    let lowest = (0..=32).map(|bits| ((1_u64 << bits) - 1) as u32);
    let registers = lowest.flat_map(|low| [low, low.reverse_bits()]);
    for alarms in registers.chain((0..32).map(|bit| 1 << bit)) {
        let mut damaged = page;
        field::put_alarms(&mut damaged, alarms);
        for count in 0..=255 {
            damaged[field::ALARM_COUNT] = count;
            sides.inspect(&damaged, call(12, 0x1111_1111))?;
        }
    }
    Ok(())
}

/// "Over 86,400 taken": its last sample but one, its last, and so with Under.
fn longest_runs<const FAULT: u8>(sides: &mut Sides<FAULT>) -> Compared<()> {
    const LONGEST: usize = 86_400;
    let settings = Settings {
        mode: 6,
        threshold: 0,
        over: LONGEST as u32,
        under: LONGEST as u32,
        clock: u32::MAX - LONGEST as u32,
    };
    let mut list = Vec::new();
    fresh_record(settings).append_to(&mut list);
    let turns = [(LONGEST - 1, 1), (1, 1), (LONGEST - 1, 0), (1, 0)];
    for (samples, power) in turns {
        for _ in 0..samples {
            call(1, power).append_to(&mut list);
        }
        sides.replay(&list, PAGE, None)?;
    }
    Ok(())
}

/// The longest profile: its last sample but one, its last.
fn longest_profile<const FAULT: u8>(sides: &mut Sides<FAULT>) -> Compared<()> {
    const LONGEST: usize = 604_800;
    let settings = Settings {
        mode: 5,
        threshold: 3000,
        over: 2,
        under: 3,
        clock: 0,
    };
    let mut list = Vec::new();
    fresh_record(settings).append_to(&mut list);
    GROUPS.append_to(&mut list);
    profile(1, LONGEST as u32).append_to(&mut list);
    for samples in [LONGEST - 1, 1] {
        for _ in 0..samples {
            call(1, 1001).append_to(&mut list);
        }
        sides.replay(&list, PAGE, None)?;
    }
    Ok(())
}

fn call(kind: u32, number: u32) -> Call {
    Call {
        kind,
        numbers: [number, 0, 0, 0, 0],
    }
}
