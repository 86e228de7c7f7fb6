//! Calls and settings, aimed at the places where cores go wrong.

use crate::archive::Settings;
use crate::call::Call;
use crate::field;
use crate::random::Random;
use crate::table::EventTable;
use plain::three_phase::{LINES, NUMBERS, PAGE, PHASES, SUM};

/// What a history aims at.
#[derive(Clone, Copy, Debug, PartialEq, Eq)]
pub enum Profile {
    Mixed,
    Edges,
    WideNumbers,
    UnknownKinds,
    /// Samples about the thresholds of all four lines.
    Lines,
    /// The same with lines about to fire.
    LateRuns,
    /// Sums that pass 32 bits.
    GreatSums,
    Requests,
    FullLogs,
    Registers,
    LateClock,
    LateOpenings,
    /// The holder's key while the load stays on.
    Key,
    Settings,
}

impl Profile {
    pub const ALL: [Profile; 14] = [
        Profile::Mixed,
        Profile::Edges,
        Profile::WideNumbers,
        Profile::UnknownKinds,
        Profile::Lines,
        Profile::LateRuns,
        Profile::GreatSums,
        Profile::Requests,
        Profile::FullLogs,
        Profile::Registers,
        Profile::LateClock,
        Profile::LateOpenings,
        Profile::Key,
        Profile::Settings,
    ];

    /// The kinds to choose from, the frequent ones more than once.
    fn kinds(self) -> &'static [u32] {
        match self {
            Profile::Lines | Profile::LateRuns | Profile::GreatSums => {
                &[1, 1, 1, 1, 1, 1, 1, 1, 1, 1, 1, 1, 1, 1, 2, 3, 5, 6, 7]
            }
            Profile::Requests => &[2, 2, 3, 3, 4, 4, 5, 5, 6, 15, 15, 1],
            Profile::FullLogs => &[9, 9, 9, 9, 9, 9, 1, 1, 1, 2, 3, 4, 5, 7, 8, 12, 13],
            Profile::Registers => &[9, 9, 9, 9, 9, 10, 11, 12, 13, 8, 1],
            Profile::LateClock => &[1, 1, 1, 1, 8, 9, 7, 14],
            Profile::LateOpenings => &[2, 3, 4, 5, 5, 6, 1, 1, 15],
            Profile::Key => &[1, 1, 1, 1, 1, 1, 1, 1, 5, 5, 5, 4, 3, 2, 6, 7],
            Profile::Settings => &[1, 1, 1, 1, 7, 7, 7, 5, 6],
            _ => &[1, 1, 1, 2, 3, 4, 5, 6, 7, 7, 8, 9, 10, 11, 12, 13, 14, 15],
        }
    }

    fn reach(self, random: &mut Random) -> Reach {
        let odds = match self {
            Profile::Edges => [1, 8, 1],
            Profile::WideNumbers => [4, 1, 5],
            Profile::Mixed | Profile::LateClock | Profile::Settings => [7, 2, 1],
            _ => [30, 1, 1],
        };
        let drawn = random.below(odds.iter().sum());
        if drawn < odds[0] {
            return Reach::Usual;
        }
        if drawn < odds[0] + odds[1] {
            return Reach::Edge;
        }
        Reach::Wide
    }
}

/// How far out the numbers of a call lie.
#[derive(Clone, Copy)]
enum Reach {
    Usual,
    /// The first and last numbers of a range and their neighbours.
    Edge,
    /// A usual number with bits above its byte or half.
    Wide,
}

const LAST: u32 = u32::MAX;
const MODES_AT_EDGE: [u32; 8] = [0, 1, 6, 7, 8, 255, 256, LAST];
const THRESHOLDS_AT_EDGE: [u32; 7] = [0, 0, 1, 0x7fff_fffe, 0x7fff_ffff, 0x8000_0000, LAST];
const DURATIONS: [u32; 8] = [1, 1, 1, 2, 2, 3, 3, 4];
const DURATIONS_AT_EDGE: [u32; 11] = [
    0,
    1,
    2,
    86_399,
    86_400,
    86_401,
    65_536,
    65_537,
    0x8000_0001,
    0x100_0001,
    LAST,
];
const CLOCKS_AT_EDGE: [u32; 6] = [0, 1, LAST, LAST - 1, LAST - 2, 0x8000_0000];
const CODES_AT_EDGE: [u32; 20] = [
    0, 3, 4, 5, 9, 10, 11, 17, 39, 47, 59, 63, 64, 66, 67, 69, 254, 255, 256, 262,
];
const MASKS_AT_EDGE: [u32; 6] = [0, 1, LAST, !1, 1 << 13, 0x8000_0000];
const LOGS_AT_EDGE: [u32; 7] = [0, 1, 3, 4, 255, 257, LAST];
const SCRIPTS_AT_EDGE: [u32; 7] = [0, 1, 2, 3, 257, 258, LAST];

/// Draws the calls of one history.
pub struct Generator {
    pub profile: Profile,
    /// Whether each line is to be over: samples come in rows of the same.
    over: [bool; LINES],
}

impl Generator {
    pub fn new(profile: Profile) -> Generator {
        Generator {
            profile,
            over: [false; LINES],
        }
    }

    /// Settings for fresh; some are refused.
    pub fn settings(&self, random: &mut Random) -> Settings {
        let reach = match random.one_in(8) {
            true => self.profile.reach(random),
            false => Reach::Usual,
        };
        let late = self.profile == Profile::LateClock;
        Settings {
            mode: mode(random, reach),
            thresholds: self.thresholds(random, reach),
            over: duration(random, reach),
            under: duration(random, reach),
            clock: clock(random, if late { Reach::Edge } else { reach }),
        }
    }

    /// The next call for the meter of this page under this table.
    pub fn call(&mut self, random: &mut Random, page: &[u8; PAGE], table: &EventTable) -> Call {
        if self.profile == Profile::UnknownKinds && random.one_in(2) {
            return unknown_kind(random);
        }
        let kind = random.pick(self.profile.kinds());
        let reach = self.profile.reach(random);
        // Numbers that a call doesn't use are drawn too; both sides ignore them.
        let mut numbers = [0; NUMBERS].map(|_| random.number());
        match kind {
            1 => {
                let powers = self.powers(random, reach, page);
                numbers[..PHASES].copy_from_slice(&powers.map(|power| power as u32));
            }
            6 => numbers[0] = mode(random, reach),
            7 => numbers = self.limiter(random, reach, page),
            8 => numbers[0] = clock(random, reach),
            9 => numbers[0] = code(random, reach, table),
            10..=13 => numbers[0] = mask(random, reach, table),
            14 => numbers[0] = draw(random, reach, &[1, 2, 3], &LOGS_AT_EDGE),
            15 => numbers[0] = draw(random, reach, &[1, 2], &SCRIPTS_AT_EDGE),
            _ => {}
        }
        Call { kind, numbers }
    }

    /// The numbers of call 7. Settings that change nothing still set each Run 0 and
    /// write a line; some have one threshold negative, or a duration amiss, or both.
    fn limiter(&self, random: &mut Random, reach: Reach, page: &[u8; PAGE]) -> [u32; NUMBERS] {
        let mut thresholds = match random.one_in(4) {
            true => field::thresholds(page),
            false => self.thresholds(random, reach),
        };
        let mut durations = match random.one_in(4) {
            true => [field::OVER, field::UNDER].map(|field| field::get(page, field)),
            false => [duration(random, reach), duration(random, reach)],
        };
        let amiss = random.below(24);
        if amiss < 2 {
            thresholds[random.below(LINES)] |= i32::MIN;
        }
        if amiss == 1 || amiss == 2 {
            durations[random.below(2)] = random.pick(&[0, 86_401]);
        }
        let [l1, l2, l3, sum] = thresholds.map(|threshold| threshold as u32);
        let [over, under] = durations;
        [l1, l2, l3, sum, over, under]
    }

    /// Of the phases anything small; of the sum mostly close to theirs together, so
    /// that it can be over by itself and not over while a phase is.
    fn thresholds(&self, random: &mut Random, reach: Reach) -> [i32; LINES] {
        let great = self.profile == Profile::GreatSums || random.one_in(12);
        let most = random.pick(&[1, 4, 5000]);
        let mut thresholds = [0; LINES].map(|_| match reach {
            Reach::Usual if great => i32::MAX - random.below(2) as i32,
            Reach::Usual => random.below(most) as i32,
            Reach::Edge => random.pick(&THRESHOLDS_AT_EDGE) as i32,
            Reach::Wide => random.number() as i32,
        });
        let phases: i64 = thresholds[..PHASES].iter().copied().map(i64::from).sum();
        let near = [-2, -1, 0, 1, 2, 3, 5].map(|more| phases + more);
        let near = random.pick(&near);
        let sum = random.pick(&[near, near, near, phases / 2, phases + 9]);
        if matches!(reach, Reach::Usual) && !great {
            thresholds[SUM] = sum.max(0) as i32;
        }
        thresholds
    }

    /// At each threshold or one above it, in rows; now and then anything.
    fn powers(&mut self, random: &mut Random, reach: Reach, page: &[u8; PAGE]) -> [i32; PHASES] {
        self.turn_lines(random);
        let extremes = [i32::MIN, i32::MIN + 1, -1, 0, 1, i32::MAX - 1, i32::MAX];
        match reach {
            Reach::Usual => self.near_thresholds(random, page),
            Reach::Edge => [0; PHASES].map(|_| random.pick(&extremes)),
            Reach::Wide => [0; PHASES].map(|_| random.number() as i32),
        }
    }

    /// Changes which lines are to be over: one or all of them, or each by itself.
    fn turn_lines(&mut self, random: &mut Random) {
        match random.below(8) {
            0 => self.over[random.below(LINES)] ^= true,
            1 => self.over = [random.one_in(2); LINES],
            2 => self.over = [0; LINES].map(|_| random.one_in(2)),
            _ => {}
        }
    }

    /// Each phase at its threshold, or one above it where it is to be over; one that
    /// is not may export. The sum is then moved to where it is to be by a phase that
    /// stays on its side.
    fn near_thresholds(&self, random: &mut Random, page: &[u8; PAGE]) -> [i32; PHASES] {
        let thresholds = field::thresholds(page).map(i64::from);
        let mut powers = [0; PHASES];
        for (phase, power) in powers.iter_mut().enumerate() {
            *power = thresholds[phase] + i64::from(self.over[phase]);
            if !self.over[phase] && random.one_in(6) {
                let export = -(random.below(5000) as i64);
                *power = random.pick(&[export, export, export, i32::MIN.into()]);
            }
        }
        let sum: i64 = powers.iter().sum();
        let short = thresholds[SUM] + 1 - sum;
        let moves = match self.over[SUM] {
            true => short.max(0),
            false => short.min(1) - 1,
        };
        // A phase that is over may be raised, one that is not may be lowered.
        let first = random.below(PHASES);
        let mut phases = (0..PHASES).map(|step| (first + step) % PHASES);
        if let Some(phase) = phases.find(|&phase| self.over[phase] == (moves > 0)) {
            powers[phase] += moves;
        }
        powers.map(|power| power.clamp(i32::MIN.into(), i32::MAX.into()) as i32)
    }

    /// A meter that calls alone would reach late or never; some are unsound.
    pub fn patch(&self, random: &mut Random, page: &[u8; PAGE], table: &EventTable) -> [u8; PAGE] {
        let mut page = *page;
        match self.profile {
            Profile::LateRuns | Profile::GreatSums => patch_lines(random, &mut page),
            Profile::Requests => patch_switch(random, &mut page),
            Profile::Lines | Profile::Key | Profile::Settings => {
                patch_lines(random, &mut page);
                patch_switch(random, &mut page);
            }
            Profile::LateClock => {
                field::put(&mut page, field::CLOCK, LAST - random.below(3) as u32);
            }
            Profile::LateOpenings => {
                field::put(&mut page, field::OPENINGS, LAST - random.below(3) as u32);
            }
            Profile::FullLogs => patch_log(random, &mut page, table),
            _ => patch_registers(random, &mut page, table),
        }
        page
    }

    /// How often a history is patched: once in so many calls.
    pub fn patches(&self) -> usize {
        match self.profile {
            Profile::LateClock | Profile::LateOpenings => 12,
            Profile::LateRuns => 6,
            Profile::Lines | Profile::GreatSums | Profile::Requests => 40,
            Profile::Key | Profile::Settings | Profile::Registers => 20,
            _ => 400,
        }
    }

    /// How many calls the history has.
    pub fn length(&self, random: &mut Random) -> usize {
        match self.profile {
            Profile::FullLogs => random.below(300),
            _ => random.below(120),
        }
    }
}

fn unknown_kind(random: &mut Random) -> Call {
    let kind = match random.below(4) {
        0 => random.pick(&[0, 16, 17]),
        1 => random.pick(&[18, 19, 255, 256, LAST, 0x8000_0000]),
        2 => random.below(18) as u32 + (random.number() << 8),
        _ => random.number(),
    };
    Call {
        kind,
        numbers: [0; NUMBERS].map(|_| random.number()),
    }
}

/// Lines one or two samples before they fire, also with the longest durations; now
/// and then a Run that is at its end already.
fn patch_lines(random: &mut Random, page: &mut [u8; PAGE]) {
    let stretches = [1, 2, 3, 4, 86_399, 86_400];
    let durations = [random.pick(&stretches), random.pick(&stretches)];
    field::put(page, field::OVER, durations[0]);
    field::put(page, field::UNDER, durations[1]);
    let all = random.pick(&[None, None, None, Some(false), Some(true)]);
    for line in 0..LINES {
        let exceeded = all.unwrap_or_else(|| random.one_in(2));
        let stretch = durations[usize::from(exceeded)];
        let left = random.pick(&[1, 1, 1, 2, 2, 3]);
        let left = if random.one_in(60) { 0 } else { left };
        page[field::of_line(field::EXCEEDED, line)] = exceeded.into();
        field::put(
            page,
            field::of_line(field::RUN, line),
            stretch.saturating_sub(left),
        );
    }
}

/// Registers that events alone would not leave, up to every bit; the count of
/// alarms is mostly theirs.
fn patch_registers(random: &mut Random, page: &mut [u8; PAGE], table: &EventTable) {
    let (any, more) = (random.number(), random.number());
    let alarms = random.pick(&[any, any & table.bits(), any | more, 0, LAST]);
    field::put_alarms(page, alarms);
    if random.one_in(8) {
        page[field::ALARM_COUNT] = random.below(34) as u8;
    }
    let filter = mask(random, Reach::Usual, table);
    field::put(page, field::ALARM_FILTER, filter);
    field::put(page, field::ERRORS, random.number());
    field::put(page, field::ERROR_FILTER, random.number());
}

fn patch_switch(random: &mut Random, page: &mut [u8; PAGE]) {
    page[field::MODE] = random.pick(&[0, 1, 2, 3, 4, 5, 5, 5, 6, 6, 6]);
    page[field::SWITCH] = random.below(3) as u8;
}

/// A log filled to its last line but one, its last or whole.
fn patch_log(random: &mut Random, page: &mut [u8; PAGE], table: &EventTable) {
    let log = random.below(3);
    let count = 30 + random.below(3);
    let mut listed = table.lines().iter();
    let listed = listed.find(|line| usize::from(line[1]) == log + 1);
    let code = listed.map_or([4, 255, 59][log], |line| line[0]);
    page[field::LOGS[log]] = count as u8;
    for line in 0..field::LOG_LINES {
        let place = field::log_line(log, line);
        let bytes = match line < count {
            true => [0, 0, 0, line as u8, code],
            false => [0; 5],
        };
        page[place..place + 5].copy_from_slice(&bytes);
    }
}

fn mode(random: &mut Random, reach: Reach) -> u32 {
    let usual = [0, 1, 2, 3, 4, 5, 5, 6, 6];
    draw(random, reach, &usual, &MODES_AT_EDGE)
}

fn duration(random: &mut Random, reach: Reach) -> u32 {
    draw(random, reach, &DURATIONS, &DURATIONS_AT_EDGE)
}

fn clock(random: &mut Random, reach: Reach) -> u32 {
    let any = random.number();
    draw(random, reach, &[any, 1000, 0], &CLOCKS_AT_EDGE)
}

/// Mostly a code that the table lists.
fn code(random: &mut Random, reach: Reach, table: &EventTable) -> u32 {
    let [listed, ..] = random.pick(table.lines());
    let built_in = random.pick(&[1, 6, 15, 40, 46, 68]);
    let usual = if random.one_in(8) { built_in } else { listed };
    draw(random, reach, &[usual.into()], &CODES_AT_EDGE)
}

fn mask(random: &mut Random, reach: Reach, table: &EventTable) -> u32 {
    let usual = random.number() & table.bits();
    let wide = random.number();
    draw(random, reach, &[usual, wide], &MASKS_AT_EDGE)
}

fn draw(random: &mut Random, reach: Reach, usual: &[u32], edge: &[u32]) -> u32 {
    let number = random.pick(usual);
    match reach {
        Reach::Usual => number,
        Reach::Edge => random.pick(edge),
        Reach::Wide if random.one_in(2) => number | random.number() << 8,
        Reach::Wide => number | random.number() << 16,
    }
}

#[cfg(test)]
mod tests {
    use super::*;

    /// Each line is over as drawn, unless no phase is free to move the sum.
    #[test]
    fn powers_put_every_line_on_its_side() {
        let mut random = Random::new(1);
        let mut generator = Generator::new(Profile::Lines);
        let mut page = [0; PAGE];
        let mut sets = [0; 16];
        for _ in 0..20_000 {
            let thresholds = generator.thresholds(&mut random, Reach::Usual);
            for (line, threshold) in thresholds.into_iter().enumerate() {
                let place = field::of_line(field::THRESHOLD, line);
                field::put(&mut page, place, threshold as u32);
            }
            let [l1, l2, l3] = generator.powers(&mut random, Reach::Usual, &page);
            let [l1, l2, l3] = [l1, l2, l3].map(i64::from);
            let values = [l1, l2, l3, l1 + l2 + l3];
            let over = [0, 1, 2, 3].map(|line| values[line] > thresholds[line].into());
            sets[over
                .iter()
                .fold(0, |set, &over| 2 * set + usize::from(over))] += 1;
        }
        assert!(sets.iter().all(|&times| times > 200), "{sets:?}");
    }
}
