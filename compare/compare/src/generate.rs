//! Calls and settings, aimed at the places where cores go wrong.

use crate::call::Call;
use crate::case::Case;
use crate::field;
use crate::random::Random;
use crate::table::{EventTable, Serving};
use pillar::{PAGE, Settings};

/// What a history aims at.
#[derive(Clone, Copy, Debug, PartialEq, Eq)]
pub enum Profile {
    Mixed,
    Edges,
    WideNumbers,
    UnknownKinds,
    Runs,
    Requests,
    FullLogs,
    Registers,
    LateClock,
    LateOpenings,
    /// The holder's key while the load stays on.
    Key,
    /// Emergency profiles that start, run, end and are replaced.
    Emergency,
}

impl Profile {
    pub const ALL: [Profile; 12] = [
        Profile::Mixed,
        Profile::Edges,
        Profile::WideNumbers,
        Profile::UnknownKinds,
        Profile::Runs,
        Profile::Requests,
        Profile::FullLogs,
        Profile::Registers,
        Profile::LateClock,
        Profile::LateOpenings,
        Profile::Key,
        Profile::Emergency,
    ];

    /// The kinds to choose from, the frequent ones more than once.
    fn kinds(self) -> &'static [u32] {
        match self {
            Profile::Runs => &[1, 1, 1, 1, 1, 1, 1, 1, 1, 1, 1, 1, 2, 3, 5, 5, 6, 7],
            Profile::Requests => &[2, 2, 3, 3, 4, 4, 5, 5, 6, 15, 15, 1],
            Profile::FullLogs => &[9, 9, 9, 9, 9, 9, 9, 9, 1, 2, 3, 4, 5, 7, 8, 12, 13],
            Profile::Registers => &[9, 9, 9, 9, 9, 10, 11, 12, 13, 8, 1],
            Profile::LateClock => &[1, 1, 1, 1, 8, 9, 7, 14],
            Profile::LateOpenings => &[2, 3, 4, 5, 5, 6, 1, 1, 15],
            Profile::Key => &[1, 1, 1, 1, 1, 1, 1, 1, 5, 5, 5, 4, 3, 2, 6, 7],
            Profile::Emergency => &[
                1, 1, 1, 1, 1, 1, 1, 1, 1, 1, 1, 1, 5, 6, 7, 8, 16, 17, 17, 17,
            ],
            _ => &[
                1, 1, 2, 3, 4, 5, 6, 7, 8, 9, 10, 11, 12, 13, 14, 15, 16, 17, 17,
            ],
        }
    }

    fn reach(self, random: &mut Random) -> Reach {
        let odds = match self {
            Profile::Edges => [1, 8, 1],
            Profile::WideNumbers => [4, 1, 5],
            Profile::Mixed | Profile::LateClock => [7, 2, 1],
            _ => [30, 1, 1],
        };
        let drawn = random.below(odds.iter().sum());
        if drawn < odds[0] {
            return Reach::Usual;
        }
        if drawn < odds[0] + odds[1] {
            return Reach::Edge;
        }
        Reach::Wide
    }
}

/// How far out the numbers of a call lie.
#[derive(Clone, Copy)]
enum Reach {
    Usual,
    /// The first and last numbers of a range and their neighbours.
    Edge,
    /// A usual number with bits above its byte or half.
    Wide,
}

const CODES: [u32; 18] = [
    1, 2, 6, 7, 8, 12, 13, 14, 15, 16, 40, 41, 42, 43, 44, 45, 46, 68,
];
const EVENT_BITS: u32 = 0x3f03;
const LAST: u32 = u32::MAX;
const MODES_AT_EDGE: [u32; 8] = [0, 1, 6, 7, 8, 255, 256, LAST];
const THRESHOLDS_AT_EDGE: [u32; 6] = [0, 1, 0x7fff_fffe, 0x7fff_ffff, 0x8000_0000, LAST];
const DURATIONS_AT_EDGE: [u32; 11] = [
    0,
    1,
    2,
    86_399,
    86_400,
    86_401,
    65_536,
    65_537,
    0x8000_0001,
    0x100_0001,
    LAST,
];
const CLOCKS_AT_EDGE: [u32; 6] = [0, 1, LAST, LAST - 1, LAST - 2, 0x8000_0000];
const CODES_AT_EDGE: [u32; 20] = [
    0, 3, 4, 5, 9, 10, 11, 17, 39, 47, 59, 63, 64, 66, 67, 69, 254, 255, 256, 262,
];
const MASKS_AT_EDGE: [u32; 7] = [0, 1, LAST, !1, 1 << 13, EVENT_BITS, 0x8000_0000];
const LOGS_AT_EDGE: [u32; 7] = [0, 1, 3, 4, 255, 257, LAST];
const SCRIPTS_AT_EDGE: [u32; 7] = [0, 1, 2, 3, 257, 258, LAST];
const COUNTS_AT_EDGE: [u32; 8] = [0, 1, 8, 9, 255, 256, 264, LAST];
const IDS: [u32; 5] = [0, 1, 7, 0x8000, 0xffff];
const EMERGENCY_AT_EDGE: [u32; 9] = [
    0,
    1,
    604_799,
    604_800,
    604_801,
    86_401,
    65_536,
    0x8000_0001,
    LAST,
];

/// Draws the calls of one history.
pub struct Generator {
    profile: Profile,
    /// Samples come in rows over or not over the threshold.
    over: bool,
}

impl Generator {
    pub fn new(profile: Profile) -> Generator {
        Generator {
            profile,
            over: false,
        }
    }

    /// Settings for fresh; some are refused.
    pub fn settings(&self, random: &mut Random) -> Settings {
        let reach = match random.one_in(8) {
            true => self.profile.reach(random),
            false => Reach::Usual,
        };
        let late = self.profile == Profile::LateClock;
        Settings {
            mode: mode(random, reach),
            threshold: threshold(random, reach) as i32,
            over: duration(random, reach),
            under: duration(random, reach),
            clock: clock(random, if late { Reach::Edge } else { reach }),
        }
    }

    /// The next call for the meter of this page under this table.
    pub fn call(&mut self, random: &mut Random, page: &[u8; PAGE], table: &EventTable) -> Call {
        if self.profile == Profile::UnknownKinds && random.one_in(2) {
            return unknown_kind(random);
        }
        if random.one_in(4)
            && let Some(call) = aimed(random, page, table)
        {
            return call;
        }
        let kind = random.pick(self.profile.kinds());
        let reach = self.profile.reach(random);
        // Numbers that a call doesn't use are drawn too; both sides ignore them.
        let mut numbers = [0; 5].map(|_| random.number());
        match kind {
            1 => numbers[0] = self.power(random, reach, page),
            6 => numbers[0] = mode(random, reach),
            // Settings that change nothing still set Run 0 and write a line.
            7 if random.one_in(4) => {
                let fields = [field::THRESHOLD, field::OVER, field::UNDER];
                numbers[..3].copy_from_slice(&fields.map(|field| field::get(page, field)));
            }
            7 => {
                numbers[0] = threshold(random, reach);
                numbers[1] = duration(random, reach);
                numbers[2] = duration(random, reach);
            }
            8 => numbers[0] = clock(random, reach),
            9 => numbers[0] = code(random, reach, table),
            10..=13 => numbers[0] = mask(random, reach, table),
            14 => numbers[0] = draw(random, reach, &[1, 2, 3], &LOGS_AT_EDGE),
            15 => numbers[0] = draw(random, reach, &[1, 2], &SCRIPTS_AT_EDGE),
            16 => numbers = groups(random, reach),
            17 => numbers = emergency(random, reach, page),
            _ => {}
        }
        Call { kind, numbers }
    }

    /// At the threshold or one above it, in rows; now and then anything.
    fn power(&mut self, random: &mut Random, reach: Reach, page: &[u8; PAGE]) -> u32 {
        let threshold = random.pick(&thresholds(page)) as i32;
        if self.profile == Profile::Key {
            self.over = !random.one_in(6);
        } else if random.one_in(5) {
            self.over = !self.over;
        }
        let power = match reach {
            Reach::Usual if self.over => threshold.saturating_add(1),
            Reach::Usual if random.one_in(3) => -(random.below(5000) as i32),
            Reach::Usual => threshold,
            Reach::Edge => random.pick(&[i32::MIN, i32::MAX, threshold - 1, 0, -1, 1]),
            Reach::Wide => random.number() as i32,
        };
        power as u32
    }

    /// A meter that calls alone would reach late or never; some are unsound.
    pub fn patch(&self, random: &mut Random, page: &[u8; PAGE], table: &EventTable) -> [u8; PAGE] {
        let mut page = *page;
        match self.profile {
            Profile::Runs => patch_run(random, &mut page),
            Profile::Requests => patch_switch(random, &mut page),
            Profile::Key => {
                patch_run(random, &mut page);
                patch_switch(random, &mut page);
            }
            Profile::Emergency => patch_profile(random, &mut page),
            Profile::LateClock => {
                let left = random.below(3) as u32;
                field::put(&mut page, field::CLOCK, LAST - left);
            }
            Profile::LateOpenings => {
                let left = random.below(3) as u32;
                field::put(&mut page, field::OPENINGS, LAST - left);
            }
            Profile::FullLogs => patch_lines(random, &mut page, table),
            _ => patch_registers(random, &mut page, table),
        }
        page
    }

    /// How often a history is patched: once in so many calls.
    pub fn patches(&self) -> usize {
        match self.profile {
            Profile::Runs | Profile::Requests | Profile::Key | Profile::Emergency => 20,
            Profile::Registers => 20,
            Profile::LateClock | Profile::LateOpenings => 12,
            _ => 400,
        }
    }

    /// How many calls the history has.
    pub fn length(&self, random: &mut Random) -> usize {
        match self.profile {
            Profile::FullLogs => random.below(400),
            _ => random.below(120),
        }
    }
}

fn unknown_kind(random: &mut Random) -> Call {
    let kind = match random.below(4) {
        0 => random.pick(&[0, 18, 19, 255, 256, LAST, 0x8000_0000]),
        1 => 256 + random.below(19) as u32,
        2 => random.below(17) as u32 + 1 + (random.number() << 8),
        _ => random.number(),
    };
    Call {
        kind,
        numbers: [0; 5].map(|_| random.number()),
    }
}

/// A call that may be a [`Case`], if it is one on the meter of this page.
fn aimed(random: &mut Random, page: &[u8; PAGE], table: &EventTable) -> Option<Call> {
    let kind = random.pick(&[1, 3, 5, 7, 8, 9, 10, 12, 15, 16, 17]);
    let mut numbers = [0; 5].map(|_| random.number());
    match kind {
        1 => {
            let threshold = random.pick(&thresholds(page)) as i32;
            numbers[0] = threshold.saturating_add(1) as u32;
        }
        7 => numbers[..3].copy_from_slice(&[random.pick(&thresholds(page)), 2, 2]),
        8 => numbers[0] = activation(random, page),
        9 => numbers[0] = random.pick(table.lines())[0].into(),
        10 | 12 => numbers[0] = mask(random, Reach::Usual, table),
        15 => numbers[0] = 2,
        16 => numbers = groups(random, Reach::Usual),
        17 => numbers = emergency(random, Reach::Usual, page),
        _ => {}
    }
    let call = Call { kind, numbers };
    Case::of(call, page, table).map(|_| call)
}

/// The normal threshold and the profile's, which may be in force.
fn thresholds(page: &[u8; PAGE]) -> [u32; 2] {
    let normal = field::get(page, field::THRESHOLD);
    match page[field::STATE] {
        field::WAITING | field::ACTIVE => [normal, field::get(page, field::PROFILE_THRESHOLD)],
        _ => [normal, normal],
    }
}

/// A count and ids, those past the count too.
fn groups(random: &mut Random, reach: Reach) -> [u32; 5] {
    let count = draw(random, reach, &[1, 2, 3, 4, 5, 6, 7, 8], &COUNTS_AT_EDGE);
    let mut pair = || random.pick(&IDS) << 16 | random.pick(&IDS);
    [count, pair(), pair(), pair(), pair()]
}

/// An id, mostly of the group, a threshold near those of the page, an activation
/// near its clock and a duration; one in eight has an id or a range amiss.
fn emergency(random: &mut Random, reach: Reach, page: &[u8; PAGE]) -> [u32; 5] {
    let ids = field::ids(page);
    let mut id = match ids.is_empty() || random.one_in(8) {
        true => random.pick(&IDS),
        false => random.pick(&ids).into(),
    };
    let near = random.pick(&thresholds(page));
    let usual = [near, near, near.saturating_sub(1), near / 2, 0];
    let mut threshold = draw(random, reach, &usual, &THRESHOLDS_AT_EDGE);
    let mut duration = draw(random, reach, &[1, 1, 2, 3, 4, 6], &EMERGENCY_AT_EDGE);
    match random.below(24) {
        0 => id |= random.number() << 16,
        1 => duration = random.pick(&[0, 604_801]),
        2 => threshold |= 0x8000_0000,
        _ => {}
    }
    [
        id,
        threshold,
        activation(random, page),
        duration,
        random.number(),
    ]
}

/// A clock about that of the page, or its first or its last.
fn activation(random: &mut Random, page: &[u8; PAGE]) -> u32 {
    let clock = field::get(page, field::CLOCK);
    let later = [0, 1, 1, 2, 3, 5].map(|seconds| clock.saturating_add(seconds));
    let any = random.number();
    match random.below(12) {
        0 => 0,
        1 => LAST,
        2 => any,
        3 => clock.saturating_sub(1),
        _ => random.pick(&later),
    }
}

/// Run one or two samples before its end, also for the longest durations.
fn patch_run(random: &mut Random, page: &mut [u8; PAGE]) {
    let stretch = random.pick(&[1, 2, 3, 86_399, 86_400]);
    let exceeded = random.below(2) as u8;
    let left = random.below(3) as u32;
    page[field::EXCEEDED] = exceeded;
    let duration = [field::OVER, field::UNDER][usize::from(exceeded)];
    field::put(page, duration, stretch);
    field::put(page, field::RUN, stretch.saturating_sub(left));
}

/// A profile about to start or to end, and sometimes a Run with it.
fn patch_profile(random: &mut Random, page: &mut [u8; PAGE]) {
    if random.one_in(2) {
        patch_run(random, page);
    }
    let normal = field::get(page, field::THRESHOLD);
    let state = random.pick(&[field::WAITING, field::ACTIVE]);
    let duration = random.pick(&[1, 2, 3, 604_800]);
    let left = match state {
        field::WAITING => duration,
        _ => random.pick(&[1, 2, 3]).min(duration),
    };
    page[field::STATE] = state;
    let id = random.pick(&IDS) as u16;
    page[field::PROFILE_ID..][..2].copy_from_slice(&id.to_be_bytes());
    let any = random.below(5000) as u32;
    let threshold = random.pick(&[normal, normal / 2, any]);
    field::put(page, field::PROFILE_THRESHOLD, threshold);
    let activation = activation(random, page);
    field::put(page, field::ACTIVATION, activation);
    field::put(page, field::DURATION, duration);
    field::put(page, field::LEFT, left);
    page[field::COUNT..].fill(0);
    page[field::COUNT] = 2;
    page[field::IDS..][..2].copy_from_slice(&id.to_be_bytes());
}

/// Registers that events alone would not leave, up to every bit; the count of
/// alarms is mostly theirs.
fn patch_registers(random: &mut Random, page: &mut [u8; PAGE], table: &EventTable) {
    let (any, more) = (random.number(), random.number());
    let alarms = random.pick(&[any, any & table.bits(), any | more, 0, LAST]);
    field::put_alarms(page, alarms);
    if random.one_in(8) {
        page[field::ALARM_COUNT] = random.below(34) as u8;
    }
    let filter = mask(random, Reach::Usual, table);
    field::put(page, field::ALARM_FILTER, filter);
    field::put(page, field::ERRORS, random.number());
}

fn patch_switch(random: &mut Random, page: &mut [u8; PAGE]) {
    page[field::MODE] = random.below(7) as u8;
    page[field::SWITCH] = random.below(3) as u8;
}

/// A log filled to its last line but one, its last or whole.
fn patch_lines(random: &mut Random, page: &mut [u8; PAGE], table: &EventTable) {
    let log = random.below(3);
    let count = 30 + random.below(3);
    let mut listed = table.lines().iter();
    let listed = listed.find(|line| usize::from(line[1]) == log + 1);
    let code = listed.map_or([4, 255, 59][log], |line| line[0]);
    page[field::LOGS[log]] = count as u8;
    for place in 0..field::LINES {
        let line = field::line(log, place);
        let held = place < count;
        field::put(page, line, if held { random.number() } else { 0 });
        page[line + 4] = if held { code } else { 0 };
    }
}

fn mode(random: &mut Random, reach: Reach) -> u32 {
    draw(random, reach, &[0, 1, 2, 3, 4, 5, 6], &MODES_AT_EDGE)
}

fn threshold(random: &mut Random, reach: Reach) -> u32 {
    let usual = random.below(5000) as u32;
    draw(random, reach, &[usual], &THRESHOLDS_AT_EDGE)
}

fn duration(random: &mut Random, reach: Reach) -> u32 {
    draw(random, reach, &[1, 2, 3, 4, 5, 6], &DURATIONS_AT_EDGE)
}

fn clock(random: &mut Random, reach: Reach) -> u32 {
    let usual = random.number();
    draw(random, reach, &[usual], &CLOCKS_AT_EDGE)
}

/// Mostly a code that the table lists; under an own one also a built-in code.
fn code(random: &mut Random, reach: Reach, table: &EventTable) -> u32 {
    let [listed, ..] = random.pick(table.lines());
    let other = match table.serving {
        Serving::Own if random.one_in(6) => random.pick(&CODES),
        _ => listed.into(),
    };
    draw(random, reach, &[other], &CODES_AT_EDGE)
}

fn mask(random: &mut Random, reach: Reach, table: &EventTable) -> u32 {
    let usual = random.number() & table.bits();
    let wide = random.number();
    draw(random, reach, &[usual, wide], &MASKS_AT_EDGE)
}

fn draw(random: &mut Random, reach: Reach, usual: &[u32], edge: &[u32]) -> u32 {
    let number = random.pick(usual);
    match reach {
        Reach::Usual => number,
        Reach::Edge => random.pick(edge),
        Reach::Wide if random.one_in(2) => number | random.number() << 8,
        Reach::Wide => number | random.number() << 16,
    }
}

#[cfg(test)]
mod tests {
    use super::*;
    use std::collections::BTreeSet;

    #[test]
    fn aimed_calls_meet_every_case() {
        let mut random = Random::new(1);
        let table = EventTable::built_in();
        let mut page = [0; PAGE];
        field::put(&mut page, field::CLOCK, 1000);
        page[field::LOGS[2]] = 2;
        page[field::line(2, 0) + 4] = 65;
        page[field::line(2, 1) + 4] = 61;
        let mut met = BTreeSet::new();
        for _ in 0..10_000 {
            patch_switch(&mut random, &mut page);
            patch_profile(&mut random, &mut page);
            patch_run(&mut random, &mut page);
            patch_registers(&mut random, &mut page, &table);
            if let Some(call) = aimed(&mut random, &page, &table) {
                met.extend(Case::of(call, &page, &table));
            }
        }
        assert_eq!(met, BTreeSet::from(Case::ALL));
    }
}
