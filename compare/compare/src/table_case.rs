//! What request A8 of document 02 is about: calls under a table of events.

use crate::call::Call;
use crate::field;
use crate::table::{DOCUMENT_01, EventTable, MOST_LINES, NO_BIT, Serving, mask};
use pillar::PAGE;

#[derive(Clone, Copy, Debug, PartialEq, Eq, PartialOrd, Ord)]
pub enum TableCase {
    /// Call 9 with a code that the own table lists: one that the built-in table
    /// does not list, or one that it has with another log or other bits.
    OwnCode,
    OtherLog,
    OtherBits,
    /// The first and the last code that a table may have, and 68.
    Code0,
    Code68,
    Code254,
    /// With a bit in one register alone, and with two that differ.
    AlarmAlone,
    ErrorAlone,
    BitsApart,
    /// Bit 31, the last.
    Bit31,
    /// Of a table with one line, and of one with the most.
    OneLine,
    MostLines,
    /// With a code that only the built-in table lists; 68 of those.
    BuiltInCode,
    BuiltIn68,
    /// With a code whose low byte alone is listed.
    WideCode,
    /// With a code of the built-in table, which serves for one that is not good.
    BadTable,
    /// Call 8 while error bit 0 stands, under a table in which event 6 raises
    /// another or none.
    ClockError,
    /// Call 8 while the error bit stands that the table gives event 6, not bit 0.
    ClockOtherError,
    /// A page judged under a table that is not its own: taken, and refused.
    PageTaken,
    PageRefused,
    /// A whole list under an own table, and under one that is not good.
    OwnList,
    BadTableList,
}

impl TableCase {
    pub const ALL: [TableCase; 22] = [
        TableCase::OwnCode,
        TableCase::OtherLog,
        TableCase::OtherBits,
        TableCase::Code0,
        TableCase::Code68,
        TableCase::Code254,
        TableCase::AlarmAlone,
        TableCase::ErrorAlone,
        TableCase::BitsApart,
        TableCase::Bit31,
        TableCase::OneLine,
        TableCase::MostLines,
        TableCase::BuiltInCode,
        TableCase::BuiltIn68,
        TableCase::WideCode,
        TableCase::BadTable,
        TableCase::ClockError,
        TableCase::ClockOtherError,
        TableCase::PageTaken,
        TableCase::PageRefused,
        TableCase::OwnList,
        TableCase::BadTableList,
    ];

    /// The cases of this call on the meter of this page under this table.
    pub fn of(call: Call, page: &[u8; PAGE], table: &EventTable) -> Vec<TableCase> {
        match (call.kind, call.numbers[0], table.serving) {
            (8, _, Serving::Own) => of_clock(page, table),
            (9, code, Serving::Own) => of_event(code, table),
            (9, code, Serving::BuiltInForBad) if table.line(code).is_some() => {
                vec![TableCase::BadTable]
            }
            _ => Vec::new(),
        }
    }

    /// The case of a list.
    pub fn of_list(table: &EventTable) -> Option<TableCase> {
        match table.serving {
            Serving::BuiltIn => None,
            Serving::BuiltInForBad => Some(TableCase::BadTableList),
            Serving::Own => Some(TableCase::OwnList),
        }
    }

    pub fn name(self) -> &'static str {
        match self {
            TableCase::OwnCode => "own table: event that the built-in one does not list",
            TableCase::OtherLog => "own table: event with another log than built in",
            TableCase::OtherBits => "own table: event with other bits than built in",
            TableCase::Code0 => "own table: event 0",
            TableCase::Code68 => "own table: event 68",
            TableCase::Code254 => "own table: event 254",
            TableCase::AlarmAlone => "own table: event with an alarm bit alone",
            TableCase::ErrorAlone => "own table: event with an error bit alone",
            TableCase::BitsApart => "own table: event with two bits that differ",
            TableCase::Bit31 => "own table: event with bit 31",
            TableCase::OneLine => "own table: event of one line",
            TableCase::MostLines => "own table: event of 64 lines",
            TableCase::BuiltInCode => "own table: built-in event that it does not list",
            TableCase::BuiltIn68 => "own table: event 68, which it does not list",
            TableCase::WideCode => "own table: code above 255, its low byte listed",
            TableCase::BadTable => "bad table: built-in event",
            TableCase::ClockError => "own table: clock set, error bit 0 not event 6's",
            TableCase::ClockOtherError => "own table: clock set, event 6's bit another",
            TableCase::PageTaken => "page under a table not its own: taken",
            TableCase::PageRefused => "page under a table not its own: refused",
            TableCase::OwnList => "list under an own table",
            TableCase::BadTableList => "list under a bad table",
        }
    }
}

fn of_event(code: u32, table: &EventTable) -> Vec<TableCase> {
    let mut built_in = DOCUMENT_01.iter();
    let built_in = built_in.find(|line| u32::from(line[0]) == code);
    let Some([_, log, alarm_bit, error_bit]) = table.line(code) else {
        let mut cases = Vec::new();
        if built_in.is_some() {
            cases.push(TableCase::BuiltInCode);
        }
        if code == 68 {
            cases.push(TableCase::BuiltIn68);
        }
        if table.line(code & 0xff).is_some() {
            cases.push(TableCase::WideCode);
        }
        return cases;
    };
    let mut cases = match built_in {
        None => vec![TableCase::OwnCode],
        Some(line) if line[1] != log => vec![TableCase::OtherLog],
        Some(line) if line[2..] != [alarm_bit, error_bit] => vec![TableCase::OtherBits],
        Some(_) => Vec::new(),
    };
    cases.extend(match code {
        0 => Some(TableCase::Code0),
        68 => Some(TableCase::Code68),
        254 => Some(TableCase::Code254),
        _ => None,
    });
    cases.extend(match [alarm_bit, error_bit] {
        [NO_BIT, NO_BIT] => None,
        [_, NO_BIT] => Some(TableCase::AlarmAlone),
        [NO_BIT, _] => Some(TableCase::ErrorAlone),
        [alarm, error] => (alarm != error).then_some(TableCase::BitsApart),
    });
    if [alarm_bit, error_bit].contains(&31) {
        cases.push(TableCase::Bit31);
    }
    cases.extend(match table.lines().len() {
        1 => Some(TableCase::OneLine),
        MOST_LINES => Some(TableCase::MostLines),
        _ => None,
    });
    cases
}

fn of_clock(page: &[u8; PAGE], table: &EventTable) -> Vec<TableCase> {
    const CLOCK_INVALID: u32 = 6;
    let bit = table.line(CLOCK_INVALID).map_or(NO_BIT, |line| line[3]);
    let errors = field::get(page, field::ERRORS);
    let mut cases = Vec::new();
    if bit != 0 && errors & 1 != 0 {
        cases.push(TableCase::ClockError);
    }
    if bit != 0 && errors & mask(bit) != 0 {
        cases.push(TableCase::ClockOtherError);
    }
    cases
}

#[cfg(test)]
mod tests {
    use super::*;

    fn met(table: &[u8], kind: u32, number: u32, errors: u32) -> Vec<TableCase> {
        let mut page = [0; PAGE];
        field::put(&mut page, field::ERRORS, errors);
        let numbers = [number, 0, 0, 0, 0];
        let table = EventTable::of(table.to_vec());
        TableCase::of(Call { kind, numbers }, &page, &table)
    }

    #[test]
    fn events_are_told_by_both_tables() {
        use TableCase::*;
        let lines = [
            [0, 1, 255, 255],
            [6, 1, 0, 0],
            [7, 1, 1, 255],
            [40, 1, 255, 31],
            [68, 3, 255, 255],
            [254, 2, 3, 4],
        ];
        let own = lines.as_flattened();
        assert_eq!(met(own, 9, 0, 0), [OwnCode, Code0]);
        assert_eq!(met(own, 9, 6, 0), []);
        assert_eq!(met(own, 9, 7, 0), [OtherBits, AlarmAlone]);
        assert_eq!(met(own, 9, 40, 0), [OtherLog, ErrorAlone, Bit31]);
        assert_eq!(met(own, 9, 68, 0), [Code68]);
        assert_eq!(met(own, 9, 254, 0), [OwnCode, Code254, BitsApart]);
        assert_eq!(met(own, 9, 1, 0), [BuiltInCode]);
        assert_eq!(met(own, 9, 3, 0), []);
        assert_eq!(met(own, 9, 256, 0), [WideCode]);
        let other = [9, 1, 255, 255];
        assert_eq!(met(&other, 9, 68, 0), [BuiltInCode, BuiltIn68]);
        assert_eq!(met(&other, 9, 9, 0), [OwnCode, OneLine]);
        let most: Vec<u8> = (70..134).flat_map(|code| [code, 1, 255, 255]).collect();
        assert_eq!(met(&most, 9, 70, 0), [OwnCode, MostLines]);
        assert_eq!(met(&[4, 1, 0, 0], 9, 68, 0), [BadTable]);
        assert_eq!(met(&[4, 1, 0, 0], 9, 4, 0), []);
        assert_eq!(met(&[], 9, 68, 0), []);
    }

    #[test]
    fn clocks_are_told_by_the_errors() {
        use TableCase::*;
        let other = [6, 1, 255, 5];
        assert_eq!(met(&other, 8, 0, 0), []);
        assert_eq!(met(&other, 8, 0, 1), [ClockError]);
        assert_eq!(met(&other, 8, 0, 1 << 5), [ClockOtherError]);
        assert_eq!(met(&other, 8, 0, 1 << 5 | 1), [ClockError, ClockOtherError]);
        assert_eq!(met(&[6, 1, 255, 0], 8, 0, 1), []);
        assert_eq!(met(&[9, 1, 255, 255], 8, 0, 1), [ClockError]);
        assert_eq!(met(&[], 8, 0, 1), []);
    }
}
