//! What request A13 is about: calls that meet a certain meter, told from the pages
//! before and after them.

use crate::call::{Call, kind_name};
use crate::field::{self, CONNECTED, LIMITER_NAMES, MODE, READY, SWITCH};
use crate::table::{EventTable, Serving, mask};
use plain::three_phase::{LINES, PAGE};
use std::fmt;

/// A call on the meter of a page, with what came of it.
pub struct Seen<'a> {
    pub call: Call,
    pub answer: u32,
    /// 0 for none.
    pub letter: u8,
    pub before: &'a [u8; PAGE],
    pub after: &'a [u8; PAGE],
    pub table: &'a EventTable,
}

#[derive(Clone, Copy, Debug, PartialEq, Eq, PartialOrd, Ord)]
pub enum Case {
    /// A kind, accepted or refused by the call's own rules.
    Accepted(u32),
    Refused(u32),
    /// "A3's profile and area aren't offered here, its kinds get 13": 0, 16 or 17.
    NotOffered(u32),
    /// Another kind, some of them with a known one in the low byte.
    UnknownKind,
    /// So many lines in one sample.
    FiresOver(usize),
    FiresUnder(usize),
    /// These lines, a bit for each.
    LinesOver(u8),
    LinesUnder(u8),
    /// A line over and another under in one sample.
    FiresBothWays,
    /// The same where h would have moved the switch.
    OverBeforeUnder,
    DisconnectsLocally,
    /// g is tried and moves nothing: the switch is not at Connected, or mode 0.
    DisconnectsNothing,
    OverInMode0,
    ReconnectsLocally,
    /// h would move the switch, but a line remains exceeded.
    HeldBack,
    /// Only the sum does so; only a phase.
    HeldBackBySum,
    HeldBackByPhase,
    SumAbove32Bits,
    SumBelow32Bits,
    /// The exact sum and the one that wraps lie on two sides of the threshold.
    WrappedSumDiffers,
    /// The sum is its threshold, or one more.
    SumAtThreshold,
    SumJustOver,
    /// "A5's reconnect acts on all four lines": each exceeded.
    ArmsExceeded(usize),
    /// The same where no line is exceeded and one has a Run.
    ArmsRun,
    /// A manual reconnect that moves nothing, with a line exceeded or a Run.
    KeyAtRest,
    /// A limiter setting with this line exceeded, which it stays.
    LimiterWhileExceeded(usize),
    /// The settings that are in force already, with a Run.
    SameLimiter,
    /// "4 if one is negative": this one alone, with good durations or with bad ones.
    Negative(usize),
    NegativeBeforeDuration(usize),
    /// Clock and openings at their end.
    ClockHeld,
    OpeningsHeld,
    /// A further line in log 3 drops the oldest.
    DropsLine,
    /// "a remote reconnect now also moves 2 to 1" (02, A1).
    ClosesFromReady,
    /// An alarm that stands more, is hidden, is cleared (02, A6).
    Raises,
    RaisesHidden,
    ClearsAlarm,
    /// A call under each kind of table (02, A8).
    UnderBuiltIn,
    UnderOwn,
    UnderBad,
    /// An event of an own table that the built-in one has not.
    OwnEvent,
}

/// The kinds that a sound meter can refuse.
const REFUSABLE: [u32; 9] = [2, 3, 4, 5, 6, 7, 9, 14, 15];

/// How many sets of lines there are, the empty one among them.
const LINE_SETS: u8 = 1 << LINES;

impl Case {
    /// All that a run must meet.
    pub fn all() -> Vec<Case> {
        let mut all = vec![
            Case::UnknownKind,
            Case::FiresBothWays,
            Case::OverBeforeUnder,
            Case::DisconnectsLocally,
            Case::DisconnectsNothing,
            Case::OverInMode0,
            Case::ReconnectsLocally,
            Case::HeldBack,
            Case::HeldBackBySum,
            Case::HeldBackByPhase,
            Case::SumAbove32Bits,
            Case::SumBelow32Bits,
            Case::WrappedSumDiffers,
            Case::SumAtThreshold,
            Case::SumJustOver,
            Case::ArmsRun,
            Case::KeyAtRest,
            Case::SameLimiter,
            Case::ClockHeld,
            Case::OpeningsHeld,
            Case::DropsLine,
            Case::ClosesFromReady,
            Case::Raises,
            Case::RaisesHidden,
            Case::ClearsAlarm,
            Case::UnderBuiltIn,
            Case::UnderOwn,
            Case::UnderBad,
            Case::OwnEvent,
        ];
        all.extend((1..=15).map(Case::Accepted));
        all.extend(REFUSABLE.map(Case::Refused));
        all.extend([0, 16, 17].map(Case::NotOffered));
        all.extend((0..=LINES).flat_map(|lines| [Case::FiresOver(lines), Case::FiresUnder(lines)]));
        let sets = 1..LINE_SETS;
        all.extend(sets.flat_map(|lines| [Case::LinesOver(lines), Case::LinesUnder(lines)]));
        for line in 0..LINES {
            all.extend([
                Case::ArmsExceeded(line),
                Case::LimiterWhileExceeded(line),
                Case::Negative(line),
                Case::NegativeBeforeDuration(line),
            ]);
        }
        all.sort_unstable();
        all
    }

    /// The cases of a call that has been compared.
    pub fn of(seen: &Seen) -> Vec<Case> {
        let mut cases = Vec::with_capacity(8);
        of_kind(seen, &mut cases);
        if seen.answer == 0 {
            of_table(seen, &mut cases);
            of_edges(seen, &mut cases);
        }
        match (seen.call.kind, seen.answer) {
            (1, 0) => of_sample(seen, &mut cases),
            (3, 0) => of_remote_reconnect(seen, &mut cases),
            (5, 0) => of_manual_reconnect(seen, &mut cases),
            (7, _) => of_limiter(seen, &mut cases),
            (9, 0) => of_event(seen, &mut cases),
            (12, 0) if alarms(seen.after) != alarms(seen.before) => cases.push(Case::ClearsAlarm),
            _ => {}
        }
        cases
    }
}

fn of_kind(seen: &Seen, cases: &mut Vec<Case>) {
    let kind = seen.call.kind;
    cases.push(match (kind, seen.answer) {
        (0 | 16 | 17, 13) => Case::NotOffered(kind),
        (_, 13) => Case::UnknownKind,
        (_, 0) => Case::Accepted(kind),
        _ => Case::Refused(kind),
    });
}

fn of_table(seen: &Seen, cases: &mut Vec<Case>) {
    cases.push(match seen.table.serving {
        Serving::BuiltIn => Case::UnderBuiltIn,
        Serving::BuiltInForBad => Case::UnderBad,
        Serving::Own => Case::UnderOwn,
    });
}

fn of_edges(seen: &Seen, cases: &mut Vec<Case>) {
    let held = |field| field::get(seen.before, field) == u32::MAX;
    if held(field::CLOCK) && seen.call.kind == 1 {
        cases.push(Case::ClockHeld);
    }
    let opens = seen.before[SWITCH] == CONNECTED && seen.after[SWITCH] != CONNECTED;
    if held(field::OPENINGS) && opens {
        cases.push(Case::OpeningsHeld);
    }
    let log = field::LOGS[2];
    let full = usize::from(seen.before[log]) == field::LOG_LINES;
    if full && seen.call.kind != 14 && seen.before[log..] != seen.after[log..] {
        cases.push(Case::DropsLine);
    }
}

fn of_sample(seen: &Seen, cases: &mut Vec<Case>) {
    let (before, after) = (field::exceeded(seen.before), field::exceeded(seen.after));
    let over = set(|line| !before[line] && after[line]);
    let under = set(|line| before[line] && !after[line]);
    cases.push(Case::FiresOver(over.count_ones() as usize));
    cases.push(Case::FiresUnder(under.count_ones() as usize));
    if over != 0 {
        cases.push(Case::LinesOver(over));
        of_over(seen, under != 0, cases);
    }
    if under != 0 {
        cases.push(Case::LinesUnder(under));
        if over == 0 {
            of_under(seen, after, cases);
        }
    }
    of_sum(seen, cases);
}

fn of_over(seen: &Seen, under_too: bool, cases: &mut Vec<Case>) {
    let mode = seen.before[MODE];
    cases.push(match seen.letter {
        b'g' => Case::DisconnectsLocally,
        _ if mode == 0 => Case::OverInMode0,
        _ => Case::DisconnectsNothing,
    });
    if under_too {
        cases.push(Case::FiresBothWays);
        if reconnects_here(seen) {
            cases.push(Case::OverBeforeUnder);
        }
    }
}

fn of_under(seen: &Seen, exceeded: [bool; LINES], cases: &mut Vec<Case>) {
    if !reconnects_here(seen) {
        return;
    }
    let [l1, l2, l3, sum] = exceeded;
    let phase = l1 || l2 || l3;
    match (phase, sum) {
        (false, false) => cases.push(Case::ReconnectsLocally),
        (false, true) => cases.extend([Case::HeldBack, Case::HeldBackBySum]),
        (true, false) => cases.extend([Case::HeldBack, Case::HeldBackByPhase]),
        (true, true) => cases.push(Case::HeldBack),
    }
}

/// Whether h, if it is tried, moves the switch.
fn reconnects_here(seen: &Seen) -> bool {
    matches!(seen.before[MODE], 5 | 6) && seen.before[SWITCH] == READY
}

fn of_sum(seen: &Seen, cases: &mut Vec<Case>) {
    let sum: i64 = seen.call.powers().into_iter().map(i64::from).sum();
    let [.., threshold] = field::thresholds(seen.before).map(i64::from);
    if sum > i32::MAX.into() {
        cases.push(Case::SumAbove32Bits);
    }
    if sum < i32::MIN.into() {
        cases.push(Case::SumBelow32Bits);
    }
    let wrapped = i64::from(sum as i32);
    if (wrapped > threshold) != (sum > threshold) {
        cases.push(Case::WrappedSumDiffers);
    }
    if sum == threshold {
        cases.push(Case::SumAtThreshold);
    }
    if sum == threshold + 1 {
        cases.push(Case::SumJustOver);
    }
}

fn of_remote_reconnect(seen: &Seen, cases: &mut Vec<Case>) {
    if seen.before[SWITCH] == READY && seen.after[SWITCH] == CONNECTED {
        cases.push(Case::ClosesFromReady);
    }
}

fn of_manual_reconnect(seen: &Seen, cases: &mut Vec<Case>) {
    let exceeded = field::exceeded(seen.before);
    let any_exceeded = exceeded.contains(&true);
    let any_run = field::runs(seen.before).iter().any(|&run| run > 0);
    if seen.letter != b'e' {
        if any_exceeded || any_run {
            cases.push(Case::KeyAtRest);
        }
        return;
    }
    let lines = (0..LINES).filter(|&line| exceeded[line]);
    cases.extend(lines.map(Case::ArmsExceeded));
    if any_run && !any_exceeded {
        cases.push(Case::ArmsRun);
    }
}

fn of_limiter(seen: &Seen, cases: &mut Vec<Case>) {
    let thresholds = seen.call.thresholds();
    let [.., over, under] = seen.call.numbers;
    let negative: Vec<usize> = (0..LINES).filter(|&line| thresholds[line] < 0).collect();
    if let [line] = negative[..] {
        let good = |duration| (1..=plain::LONGEST).contains(&duration);
        cases.push(match good(over) && good(under) {
            true => Case::Negative(line),
            false => Case::NegativeBeforeDuration(line),
        });
    }
    if seen.answer != 0 {
        return;
    }
    let exceeded = field::exceeded(seen.before);
    let lines = (0..LINES).filter(|&line| exceeded[line]);
    cases.extend(lines.map(Case::LimiterWhileExceeded));
    let durations = [field::OVER, field::UNDER].map(|field| field::get(seen.before, field));
    let same = thresholds == field::thresholds(seen.before) && [over, under] == durations;
    if same && field::runs(seen.before).iter().any(|&run| run > 0) {
        cases.push(Case::SameLimiter);
    }
}

fn of_event(seen: &Seen, cases: &mut Vec<Case>) {
    let code = seen.call.numbers[0];
    if seen.table.serving == Serving::Own && EventTable::built_in().line(code).is_none() {
        cases.push(Case::OwnEvent);
    }
    let Some([_, _, alarm, _]) = seen.table.line(code) else {
        return;
    };
    if mask(alarm) & field::get(seen.before, field::ALARM_FILTER) != 0 {
        cases.push(Case::RaisesHidden);
    }
    if alarms(seen.after) != alarms(seen.before) {
        cases.push(Case::Raises);
    }
}

fn alarms(page: &[u8; PAGE]) -> u32 {
    field::get(page, field::ALARMS)
}

/// The lines of which this holds, a bit for each.
fn set(holds: impl Fn(usize) -> bool) -> u8 {
    let lines = (0..LINES).filter(|&line| holds(line));
    lines.fold(0, |set, line| set | 1 << line)
}

/// The lines of a set by name.
fn names(set: u8) -> String {
    let lines = (0..LINES).filter(|line| set >> line & 1 != 0);
    let names: Vec<_> = lines.map(|line| LIMITER_NAMES[line]).collect();
    names.join(", ")
}

impl fmt::Display for Case {
    fn fmt(&self, f: &mut fmt::Formatter) -> fmt::Result {
        let named = match *self {
            Case::Accepted(kind) => {
                return write!(f, "kind {kind} ({}) accepted", kind_name(kind));
            }
            Case::Refused(kind) => return write!(f, "kind {kind} ({}) refused", kind_name(kind)),
            Case::NotOffered(kind) => return write!(f, "kind {kind} refused with 13"),
            Case::FiresOver(lines) => return write!(f, "sample with {lines} lines firing over"),
            Case::FiresUnder(lines) => return write!(f, "sample with {lines} lines firing under"),
            Case::LinesOver(lines) => return write!(f, "firing over: {}", names(lines)),
            Case::LinesUnder(lines) => return write!(f, "firing under: {}", names(lines)),
            Case::ArmsExceeded(line) => {
                return write!(f, "key ends Exceeded on {}", LIMITER_NAMES[line]);
            }
            Case::LimiterWhileExceeded(line) => {
                let name = LIMITER_NAMES[line];
                return write!(f, "limiter setting while {name} is exceeded");
            }
            Case::Negative(line) => {
                return write!(f, "negative threshold of {}", LIMITER_NAMES[line]);
            }
            Case::NegativeBeforeDuration(line) => {
                let name = LIMITER_NAMES[line];
                return write!(f, "negative threshold of {name} and a duration amiss");
            }
            Case::UnknownKind => "unknown kind refused with 13",
            Case::FiresBothWays => "lines firing over and under in one sample",
            Case::OverBeforeUnder => "the same at Ready in mode 5 or 6",
            Case::DisconnectsLocally => "g moves",
            Case::DisconnectsNothing => "g tried, nothing moves",
            Case::OverInMode0 => "firing over in mode 0",
            Case::ReconnectsLocally => "h moves",
            Case::HeldBack => "h held back, a line remains exceeded",
            Case::HeldBackBySum => "h held back by the sum alone",
            Case::HeldBackByPhase => "h held back by phases alone",
            Case::SumAbove32Bits => "sum above 32 bits",
            Case::SumBelow32Bits => "sum below 32 bits",
            Case::WrappedSumDiffers => "sum that a 32-bit sum would judge otherwise",
            Case::SumAtThreshold => "sum at its threshold",
            Case::SumJustOver => "sum one above its threshold",
            Case::ArmsRun => "key ends a Run, no line exceeded",
            Case::KeyAtRest => "key that moves nothing, a line exceeded or with a Run",
            Case::SameLimiter => "limiter setting in force already, with a Run",
            Case::ClockHeld => "clock held at its end",
            Case::OpeningsHeld => "openings held at their end",
            Case::DropsLine => "log 3 drops its oldest line",
            Case::ClosesFromReady => "remote reconnect closes from Ready",
            Case::Raises => "event raises an alarm",
            Case::RaisesHidden => "event with an alarm that the filter hides",
            Case::ClearsAlarm => "clear of an alarm that stands",
            Case::UnderBuiltIn => "call under the built-in table",
            Case::UnderOwn => "call under an own table",
            Case::UnderBad => "call under a table that is not good",
            Case::OwnEvent => "event that an own table alone has",
        };
        f.write_str(named)
    }
}
