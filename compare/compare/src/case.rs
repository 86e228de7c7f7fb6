//! What the requests of document 02 are about, but for A8: calls that meet a
//! certain meter.

use crate::call::Call;
use crate::field::{self, ACTIVE, CONNECTED, EXCEEDED, MODE, READY, STATE, SWITCH, WAITING};
use crate::table::{EventTable, NO_BIT};
use pillar::PAGE;

/// A call, and a meter that it meets.
#[derive(Clone, Copy, Debug, PartialEq, Eq, PartialOrd, Ord)]
pub enum Case {
    /// "a remote reconnect now also moves 2 to 1" (02, A1).
    ClosesByCall,
    ClosesByScript,
    /// "The other modes keep their row" (02, A1).
    StaysReady,
    /// "a manual reconnect that moves the switch also ends Exceeded" (02, A5).
    EndsExceeded,
    /// "and sets Run 0" (02, A5), where not Exceeded.
    EndsRun,
    /// A manual reconnect that moves nothing, and leaves Exceeded or a Run.
    KeyAtRest,
    /// "A holder who reconnects with the kettle still on" is cut again (02, A5).
    CutAgain,
    /// "at the start before the sample is judged" (02, A3), with another
    /// threshold and with the same.
    Starts,
    StartsAlike,
    /// A profile of one sample.
    StartsAndEnds,
    /// "at the end after the last governed one" (02, A3).
    Ends,
    EndsAlike,
    /// "or at a kind 17 that replaces an active profile" (02, A3).
    ReplacesActive,
    ReplacesAlike,
    ReplacesWaiting,
    /// "Call 7 sets the normal threshold" (02, A3), under an active profile.
    LimiterUnderProfile,
    /// "setting the clock back or new groups don't end it" (02, A3).
    ClockBackUnderProfile,
    GroupsUnderProfile,
    /// Setting the clock to a waiting profile's activation, which starts nothing.
    ClockAtActivation,
    /// "15, id not in the group" (02, A3), though its 16 bits are.
    WideId,
    /// "16, ..., after 15" (02, A3).
    RefusedTwice,
    /// "How many alarms stand" (02, A6): an event with an alarm bit that does not
    /// stand, is hidden, or stands already.
    Raises,
    RaisesHidden,
    RaisesStanding,
    /// A filter that hides an alarm that stands, and leaves it counted.
    HidesStanding,
    /// A clear of alarms after which none of those that stood is left, or some
    /// are; or one whose mask meets none of them.
    ClearsAll,
    ClearsSome,
    ClearsOthers,
}

impl Case {
    pub const ALL: [Case; 28] = [
        Case::ClosesByCall,
        Case::ClosesByScript,
        Case::StaysReady,
        Case::EndsExceeded,
        Case::EndsRun,
        Case::KeyAtRest,
        Case::CutAgain,
        Case::Starts,
        Case::StartsAlike,
        Case::StartsAndEnds,
        Case::Ends,
        Case::EndsAlike,
        Case::ReplacesActive,
        Case::ReplacesAlike,
        Case::ReplacesWaiting,
        Case::LimiterUnderProfile,
        Case::ClockBackUnderProfile,
        Case::GroupsUnderProfile,
        Case::ClockAtActivation,
        Case::WideId,
        Case::RefusedTwice,
        Case::Raises,
        Case::RaisesHidden,
        Case::RaisesStanding,
        Case::HidesStanding,
        Case::ClearsAll,
        Case::ClearsSome,
        Case::ClearsOthers,
    ];

    /// The case of this call on the meter of this page under this table, if it is
    /// one.
    pub fn of(call: Call, page: &[u8; PAGE], table: &EventTable) -> Option<Case> {
        let active = page[STATE] == ACTIVE;
        match (call.kind, call.numbers[0]) {
            (1, power) if cuts_again(power as i32, page) => Some(Case::CutAgain),
            (1, _) => of_sample(page),
            (3, _) => of_remote_reconnect(page, Case::ClosesByCall),
            (5, _) => of_manual_reconnect(page),
            (7, _) if active => Some(Case::LimiterUnderProfile),
            (8, clock) => of_clock(clock, page),
            (9, code) => of_event(code, page, table),
            (10, filter) => of_alarm_filter(filter, page),
            (12, mask) => of_clear_alarms(mask, page),
            (15, 2) => of_remote_reconnect(page, Case::ClosesByScript),
            (16, _) if active => Some(Case::GroupsUnderProfile),
            (17, _) => of_profile(call.numbers, page),
            _ => None,
        }
    }

    pub fn name(self) -> &'static str {
        match self {
            Case::ClosesByCall => "remote reconnect from Ready in mode 2 or 4",
            Case::ClosesByScript => "script 2 from Ready in mode 2 or 4",
            Case::StaysReady => "remote reconnect from Ready in another mode",
            Case::EndsExceeded => "manual reconnect from Ready while Exceeded",
            Case::EndsRun => "manual reconnect from Ready with a Run, not Exceeded",
            Case::KeyAtRest => "manual reconnect that moves nothing, Exceeded or with a Run",
            Case::CutAgain => "cut again after a manual reconnect, no under firing between",
            Case::Starts => "profile starts, another threshold",
            Case::StartsAlike => "profile starts, the same threshold",
            Case::StartsAndEnds => "profile of one sample",
            Case::Ends => "profile ends, another threshold",
            Case::EndsAlike => "profile ends, the same threshold",
            Case::ReplacesActive => "profile in place of an active one, another threshold",
            Case::ReplacesAlike => "profile in place of an active one, the same threshold",
            Case::ReplacesWaiting => "profile in place of a waiting one",
            Case::LimiterUnderProfile => "limiter setting under an active profile",
            Case::ClockBackUnderProfile => "clock set back under an active profile",
            Case::GroupsUnderProfile => "groups under an active profile",
            Case::ClockAtActivation => "clock set to activation or later, profile waiting",
            Case::WideId => "id above 16 bits, its low half in the group",
            Case::RefusedTwice => "id not in the group and the profile out of range",
            Case::Raises => "event with an alarm that does not stand",
            Case::RaisesHidden => "event with an alarm that the filter hides",
            Case::RaisesStanding => "event with an alarm that stands",
            Case::HidesStanding => "filter over an alarm that stands",
            Case::ClearsAll => "clear of alarms, none left",
            Case::ClearsSome => "clear of alarms, some left",
            Case::ClearsOthers => "clear of alarms, of those that do not stand",
        }
    }
}

fn of_remote_reconnect(page: &[u8; PAGE], closes: Case) -> Option<Case> {
    match (page[MODE], page[SWITCH]) {
        (2 | 4, READY) => Some(closes),
        (_, READY) => Some(Case::StaysReady),
        _ => None,
    }
}

/// Only where the limiter shows whether it was armed.
fn of_manual_reconnect(page: &[u8; PAGE]) -> Option<Case> {
    let exceeded = page[EXCEEDED] == 1;
    let run = field::get(page, field::RUN);
    if page[MODE] == 0 || !exceeded && run == 0 {
        return None;
    }
    if page[SWITCH] != READY {
        return Some(Case::KeyAtRest);
    }
    Some(if exceeded {
        Case::EndsExceeded
    } else {
        Case::EndsRun
    })
}

/// The sample fires over and opens; before it the limiter last fired over, and
/// the key has closed since.
fn cuts_again(power: i32, page: &[u8; PAGE]) -> bool {
    let threshold = field::get(page, field::THRESHOLD) as i32;
    let fires = page[EXCEEDED] == 0
        && power > threshold
        && field::get(page, field::RUN) + 1 == field::get(page, field::OVER);
    if !fires || page[MODE] == 0 || page[SWITCH] != CONNECTED {
        return false;
    }
    let mut marks = field::newest_codes(page, 2).filter(|code| matches!(code, 61 | 65 | 66));
    marks.next() == Some(61) && marks.next() == Some(65)
}

/// The first sample of a waiting profile, or the last of an active one.
fn of_sample(page: &[u8; PAGE]) -> Option<Case> {
    let clock = field::get(page, field::CLOCK).saturating_add(1);
    let last = field::get(page, field::LEFT) == 1;
    let (other, alike) = match page[STATE] {
        WAITING if clock < field::get(page, field::ACTIVATION) => return None,
        WAITING if last => return Some(Case::StartsAndEnds),
        WAITING => (Case::Starts, Case::StartsAlike),
        ACTIVE if last => (Case::Ends, Case::EndsAlike),
        _ => return None,
    };
    Some(if thresholds_differ(page) {
        other
    } else {
        alike
    })
}

fn of_clock(clock: u32, page: &[u8; PAGE]) -> Option<Case> {
    match page[STATE] {
        ACTIVE if clock < field::get(page, field::CLOCK) => Some(Case::ClockBackUnderProfile),
        WAITING if clock >= field::get(page, field::ACTIVATION) => Some(Case::ClockAtActivation),
        _ => None,
    }
}

/// Of the codes with an alarm bit.
fn of_event(code: u32, page: &[u8; PAGE], table: &EventTable) -> Option<Case> {
    let [_, _, bit, _] = table.line(code)?;
    if bit == NO_BIT {
        return None;
    }
    let is_one = |register| field::get(page, register) >> bit & 1 == 1;
    Some(if is_one(field::ALARMS) {
        Case::RaisesStanding
    } else if is_one(field::ALARM_FILTER) {
        Case::RaisesHidden
    } else {
        Case::Raises
    })
}

fn of_alarm_filter(filter: u32, page: &[u8; PAGE]) -> Option<Case> {
    let hidden = field::get(page, field::ALARMS) & filter;
    (hidden != 0).then_some(Case::HidesStanding)
}

fn of_clear_alarms(mask: u32, page: &[u8; PAGE]) -> Option<Case> {
    let standing = field::get(page, field::ALARMS);
    match (standing & mask, standing & !mask) {
        (0, 0) => None,
        (_, 0) => Some(Case::ClearsAll),
        (0, _) if mask == 0 => None,
        (0, _) => Some(Case::ClearsOthers),
        _ => Some(Case::ClearsSome),
    }
}

fn of_profile(numbers: [u32; 5], page: &[u8; PAGE]) -> Option<Case> {
    let [id, threshold, _, duration, _] = numbers;
    let in_group = |id| field::ids(page).contains(&id);
    let in_range = threshold as i32 >= 0 && (1..=604_800).contains(&duration);
    if u16::try_from(id).is_ok_and(in_group) {
        return match page[STATE] {
            _ if !in_range => None,
            WAITING => Some(Case::ReplacesWaiting),
            ACTIVE if thresholds_differ(page) => Some(Case::ReplacesActive),
            ACTIVE => Some(Case::ReplacesAlike),
            _ => None,
        };
    }
    if !in_range {
        return Some(Case::RefusedTwice);
    }
    in_group(id as u16).then_some(Case::WideId)
}

fn thresholds_differ(page: &[u8; PAGE]) -> bool {
    let emergency = field::get(page, field::PROFILE_THRESHOLD);
    emergency != field::get(page, field::THRESHOLD)
}

#[cfg(test)]
mod tests {
    use super::*;

    fn page(mode: u8, switch: u8) -> [u8; PAGE] {
        let mut page = [0; PAGE];
        page[MODE] = mode;
        page[SWITCH] = switch;
        page
    }

    fn met(kind: u32, number: u32, page: &[u8; PAGE]) -> Option<Case> {
        let numbers = [number, 2, 2, 2, 2];
        Case::of(Call { kind, numbers }, page, &EventTable::built_in())
    }

    #[test]
    fn reconnects_from_ready_are_told_by_mode_and_kind() {
        for mode in 1..=6 {
            let closes = matches!(mode, 2 | 4);
            let case = |case| Some(if closes { case } else { Case::StaysReady });
            let ready = page(mode, READY);
            assert_eq!(met(3, 0, &ready), case(Case::ClosesByCall));
            assert_eq!(met(15, 2, &ready), case(Case::ClosesByScript));
            assert_eq!(met(15, 1, &ready), None);
            assert_eq!(met(3, 0, &page(mode, 0)), None);
            assert_eq!(met(3, 0, &page(mode, 1)), None);
        }
    }

    #[test]
    fn manual_reconnects_are_told_by_the_limiter() {
        let key = |mode, switch, exceeded, run| {
            let mut page = page(mode, switch);
            page[EXCEEDED] = exceeded;
            field::put(&mut page, field::RUN, run);
            met(5, 0, &page)
        };
        for mode in 1..=6 {
            assert_eq!(key(mode, READY, 1, 0), Some(Case::EndsExceeded));
            assert_eq!(key(mode, READY, 1, 3), Some(Case::EndsExceeded));
            assert_eq!(key(mode, READY, 0, 3), Some(Case::EndsRun));
            assert_eq!(key(mode, READY, 0, 0), None);
            assert_eq!(key(mode, CONNECTED, 1, 0), Some(Case::KeyAtRest));
            assert_eq!(key(mode, 0, 0, 3), Some(Case::KeyAtRest));
            assert_eq!(key(mode, 0, 0, 0), None);
        }
        assert_eq!(key(0, CONNECTED, 1, 3), None);
    }

    #[test]
    fn a_second_cut_is_told_by_log_3() {
        let cut = |codes: &[u8], power, run| {
            let mut page = page(5, CONNECTED);
            field::put(&mut page, field::THRESHOLD, 10);
            field::put(&mut page, field::OVER, 2);
            field::put(&mut page, field::RUN, run);
            page[field::LOGS[2]] = codes.len() as u8;
            for (place, &code) in codes.iter().enumerate() {
                page[field::line(2, place) + 4] = code;
            }
            met(1, power, &page)
        };
        let again = Some(Case::CutAgain);
        assert_eq!(cut(&[65, 64, 61], 11, 1), again);
        assert_eq!(cut(&[66, 65, 64, 67, 61, 68], 11, 1), again);
        assert_eq!(cut(&[65, 64, 61], 10, 1), None);
        assert_eq!(cut(&[65, 64, 61], 11, 0), None);
        assert_eq!(cut(&[65, 64, 66, 61], 11, 1), None);
        assert_eq!(cut(&[60, 61], 11, 1), None);
        assert_eq!(cut(&[65, 64, 63], 11, 1), None);
    }

    /// A page of clock 100 and threshold 10 with the group 7 and a profile of
    /// this state, threshold and samples left, activation 102.
    fn profiled(state: u8, threshold: u32, left: u32) -> [u8; PAGE] {
        let mut page = page(5, CONNECTED);
        field::put(&mut page, field::CLOCK, 100);
        field::put(&mut page, field::THRESHOLD, 10);
        field::put(&mut page, field::OVER, 9);
        field::put(&mut page, field::PROFILE_THRESHOLD, threshold);
        field::put(&mut page, field::ACTIVATION, 102);
        field::put(&mut page, field::LEFT, left);
        page[STATE] = state;
        page[field::COUNT] = 1;
        page[field::IDS + 1] = 7;
        page
    }

    #[test]
    fn samples_are_told_by_the_profile() {
        let mut page = profiled(WAITING, 5, 2);
        assert_eq!(met(1, 0, &page), None);
        field::put(&mut page, field::CLOCK, 101);
        assert_eq!(met(1, 0, &page), Some(Case::Starts));
        field::put(&mut page, field::LEFT, 1);
        assert_eq!(met(1, 0, &page), Some(Case::StartsAndEnds));
        let mut page = profiled(WAITING, 10, 2);
        field::put(&mut page, field::CLOCK, 101);
        assert_eq!(met(1, 0, &page), Some(Case::StartsAlike));
        assert_eq!(met(1, 0, &profiled(ACTIVE, 5, 2)), None);
        assert_eq!(met(1, 0, &profiled(ACTIVE, 5, 1)), Some(Case::Ends));
        assert_eq!(met(1, 0, &profiled(ACTIVE, 10, 1)), Some(Case::EndsAlike));
        assert_eq!(met(1, 0, &profiled(0, 0, 0)), None);
    }

    #[test]
    fn settings_are_told_by_the_profile() {
        for state in [0, WAITING, ACTIVE] {
            let page = profiled(state, 5, 2);
            let active = |case| (state == ACTIVE).then_some(case);
            let waiting = |case| (state == WAITING).then_some(case);
            assert_eq!(met(7, 10, &page), active(Case::LimiterUnderProfile));
            assert_eq!(met(16, 1, &page), active(Case::GroupsUnderProfile));
            assert_eq!(met(8, 99, &page), active(Case::ClockBackUnderProfile));
            assert_eq!(met(8, 101, &page), None);
            assert_eq!(met(8, 102, &page), waiting(Case::ClockAtActivation));
        }
    }

    #[test]
    fn alarms_are_told_by_those_that_stand() {
        let mut page = page(5, CONNECTED);
        assert_eq!(met(12, u32::MAX, &page), None);
        assert_eq!(met(10, u32::MAX, &page), None);
        field::put_alarms(&mut page, 0x2001);
        field::put(&mut page, field::ALARM_FILTER, 0x0003);
        assert_eq!(page[field::ALARM_COUNT], 2);
        for (code, case) in [
            (6, Some(Case::RaisesStanding)),
            (7, Some(Case::RaisesHidden)),
            (12, Some(Case::Raises)),
            (16, Some(Case::Raises)),
            (44, Some(Case::RaisesStanding)),
            (41, None),
            (262, None),
        ] {
            assert_eq!(met(9, code, &page), case, "code {code}");
        }
        assert_eq!(met(10, 0x2000, &page), Some(Case::HidesStanding));
        assert_eq!(met(10, 0x1ffe, &page), None);
        assert_eq!(met(12, 0x3f03, &page), Some(Case::ClearsAll));
        assert_eq!(met(12, 0x2000, &page), Some(Case::ClearsSome));
        assert_eq!(met(12, 0x1000, &page), Some(Case::ClearsOthers));
        assert_eq!(met(12, 0, &page), None);
    }

    #[test]
    fn alarms_are_told_by_the_own_table() {
        let table = EventTable::of(vec![6, 1, 31, 255, 7, 2, 255, 0, 9, 3, 5, 5]);
        let mut page = page(5, CONNECTED);
        field::put_alarms(&mut page, 1 << 31);
        field::put(&mut page, field::ALARM_FILTER, 1 << 5);
        let event = |code| {
            let numbers = [code, 0, 0, 0, 0];
            Case::of(Call { kind: 9, numbers }, &page, &table)
        };
        assert_eq!(event(6), Some(Case::RaisesStanding));
        assert_eq!(event(7), None);
        assert_eq!(event(9), Some(Case::RaisesHidden));
        assert_eq!(event(12), None);
        assert_eq!(event(256 + 6), None);
    }

    #[test]
    fn profiles_are_told_by_the_one_before_and_the_groups() {
        let set = |page: &[u8; PAGE], id, threshold, duration| {
            let numbers = [id, threshold, 0, duration, 0];
            Case::of(Call { kind: 17, numbers }, page, &EventTable::built_in())
        };
        let none = profiled(0, 0, 0);
        assert_eq!(set(&none, 7, 5, 2), None);
        assert_eq!(set(&none, 8, 5, 2), None);
        assert_eq!(set(&none, 7, 5, 0), None);
        assert_eq!(set(&none, 0x1_0007, 5, 2), Some(Case::WideId));
        assert_eq!(set(&none, 8, 5, 604_801), Some(Case::RefusedTwice));
        assert_eq!(set(&none, 8, u32::MAX, 2), Some(Case::RefusedTwice));
        let waiting = profiled(WAITING, 5, 2);
        assert_eq!(set(&waiting, 7, 10, 2), Some(Case::ReplacesWaiting));
        let active = profiled(ACTIVE, 5, 2);
        assert_eq!(set(&active, 7, 10, 2), Some(Case::ReplacesActive));
        assert_eq!(set(&active, 7, u32::MAX, 2), None);
        let alike = profiled(ACTIVE, 10, 2);
        assert_eq!(set(&alike, 7, 5, 2), Some(Case::ReplacesAlike));
    }
}
