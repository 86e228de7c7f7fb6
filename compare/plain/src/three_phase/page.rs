//! The page, big-endian: "The limiter area is Over, Under, then threshold, Exceeded
//! and Run per line, 44 bytes, in a page of 586." (02, A13)

use super::{LINES, Line, NUMBERS, ThreePhase, is_kind};
use crate::log::Log;
use crate::meter::{Answer, Machine};
use crate::page::{LOG, directory, get, put, read_log, write_log};
use crate::table::Table;
use crate::{fault, refusal};

/// The page's length.
pub const PAGE: usize = 586;

/// Pairs of offset and length, sorted by offset.
pub const PAIRS: [(u16, u16); 8] = [
    (32, 6),
    (38, 44),
    (82, 4),
    (86, 9),
    (95, 8),
    (103, 161),
    (264, 161),
    (425, 161),
];

const DIRECTORY: [u8; 32] = directory(&PAIRS);

// "mode 1 byte, switch 1, openings 4" (01)
const MODE: usize = 32;
const SWITCH: usize = 33;
const OPENINGS: usize = 34;
// "Over, Under, then threshold, Exceeded and Run per line"
const LIMITER: usize = 38;
const LINE_BYTES: usize = 9;
// "clock; alarms and their filter; errors and theirs" (01); how many alarms stand
// is "one byte at the end of the alarms area" (02, A6)
const CLOCK: usize = 82;
const ALARMS: usize = 86;
const ALARM_FILTER: usize = 90;
const ALARM_COUNT: usize = 94;
const ERRORS: usize = 95;
const ERROR_FILTER: usize = 99;
// "the logs, each a count byte and 32 lines of clock 4, code 1" (01)
const LOGS: usize = 103;

/// Where the fields of a line lie.
struct Places {
    threshold: usize,
    exceeded: usize,
    run: usize,
}

impl<const FAULT: u8> ThreePhase<FAULT> {
    /// Writes the page into the first [`PAGE`] bytes and leaves those past it. A
    /// refused writer (12, then 8) leaves every byte.
    pub fn write_page(&self, table: &Table, out: &mut [u8]) -> Result<(), u8> {
        self.demand_sound(table)?;
        self.write_sound(out)
    }

    /// The same for a record that is known to be sound: it isn't tested.
    fn write_sound(&self, out: &mut [u8]) -> Result<(), u8> {
        let page = out.first_chunk_mut::<PAGE>().ok_or(refusal::BUFFER)?;
        let common = &self.common;
        page[..MODE].copy_from_slice(&DIRECTORY);
        page[MODE] = common.mode;
        page[SWITCH] = common.switch;
        put(page, OPENINGS, common.openings);
        self.write_limiter(page);
        put(page, CLOCK, common.clock);
        put(page, ALARMS, common.alarms);
        put(page, ALARM_FILTER, common.alarm_filter);
        page[ALARM_COUNT] = common.alarm_count;
        put(page, ERRORS, common.errors);
        put(page, ERROR_FILTER, common.error_filter);
        let (areas, _) = page[LOGS..].as_chunks_mut::<LOG>();
        for (area, log) in areas.iter_mut().zip(&common.logs) {
            write_log(area, log);
        }
        Ok(())
    }

    fn write_limiter(&self, page: &mut [u8; PAGE]) {
        let [over, under] = duration_places::<FAULT>();
        put(page, over, self.over);
        put(page, under, self.under);
        for (place, line) in self.lines.iter().enumerate() {
            let places = line_places::<FAULT>(place);
            put(page, places.threshold, line.threshold as u32);
            page[places.exceeded] = line.exceeded.into();
            put(page, places.run, line.run);
        }
    }

    /// Reads a page: refusal 9 by its length, 10 by its pairs, 11 by the record that
    /// it would give.
    pub fn read_page(bytes: &[u8], table: &Table) -> Result<Self, u8> {
        let page: &[u8; PAGE] = bytes.try_into().map_err(|_| refusal::LENGTH)?;
        if page[..MODE] != DIRECTORY {
            return Err(refusal::PAIR);
        }
        let [over, under] = duration_places::<FAULT>();
        let mut meter = ThreePhase {
            over: get(page, over),
            under: get(page, under),
            lines: read_lines::<FAULT>(page).ok_or(refusal::UNSOUND_PAGE)?,
            common: read_common(page),
        };
        let (areas, _) = page[LOGS..].as_chunks::<LOG>();
        let mut logs = areas.iter().zip(&mut meter.common.logs);
        if !logs.all(|(area, log)| read_log::<false>(area, log)) || !meter.sound(table) {
            return Err(refusal::UNSOUND_PAGE);
        }
        Ok(meter)
    }

    /// A call on the meter of a page, which is then that of the meter after it: 13
    /// comes first, then the reader's 9, 10 and 11, then the call's own.
    pub fn call_on_page(
        page: &mut [u8],
        table: &Table,
        kind: u32,
        numbers: [u32; NUMBERS],
    ) -> Answer {
        if !is_kind::<FAULT>(kind) && FAULT != fault::READS_BEFORE_KIND {
            return Err(refusal::KIND);
        }
        let mut meter = Self::read_page(page, table)?;
        // The reader has tested the record, and a call keeps it sound.
        let letter = meter.command_sound(table, kind, numbers)?;
        meter.write_sound(page)?;
        Ok(letter)
    }
}

/// The lines, unless an Exceeded is "above 1" (01).
fn read_lines<const FAULT: u8>(page: &[u8; PAGE]) -> Option<[Line; LINES]> {
    let mut lines = [Line::default(); LINES];
    for (place, line) in lines.iter_mut().enumerate() {
        let places = line_places::<FAULT>(place);
        let exceeded = page[places.exceeded];
        let any = match FAULT {
            fault::READS_ANY_EXCEEDED => true,
            fault::READS_ANY_SUM_EXCEEDED => place == super::SUM,
            _ => false,
        };
        if exceeded > 1 && !any {
            return None;
        }
        *line = Line {
            threshold: get(page, places.threshold) as i32,
            exceeded: exceeded != 0,
            run: get(page, places.run),
        };
    }
    Some(lines)
}

/// All but the limiter and the logs.
fn read_common<const FAULT: u8>(page: &[u8; PAGE]) -> Machine<FAULT> {
    Machine {
        mode: page[MODE],
        switch: page[SWITCH],
        openings: get(page, OPENINGS),
        clock: get(page, CLOCK),
        alarms: get(page, ALARMS),
        alarm_filter: get(page, ALARM_FILTER),
        alarm_count: page[ALARM_COUNT],
        errors: get(page, ERRORS),
        error_filter: get(page, ERROR_FILTER),
        logs: [Log::EMPTY; 3],
        ..Machine::default()
    }
}

/// Where Over and Under lie.
const fn duration_places<const FAULT: u8>() -> [usize; 2] {
    match FAULT {
        fault::UNDER_BEFORE_OVER => [LIMITER + 4, LIMITER],
        fault::LINES_BEFORE_DURATIONS => [LIMITER + 36, LIMITER + 40],
        _ => [LIMITER, LIMITER + 4],
    }
}

const fn line_places<const FAULT: u8>(place: usize) -> Places {
    let lines = match FAULT {
        fault::LINES_BEFORE_DURATIONS => LIMITER,
        _ => LIMITER + 8,
    };
    let line = lines + place * LINE_BYTES;
    match FAULT {
        fault::LIMITER_BY_FIELD => Places {
            threshold: lines + 4 * place,
            exceeded: lines + 16 + place,
            run: lines + 20 + 4 * place,
        },
        fault::RUN_BEFORE_EXCEEDED => Places {
            threshold: line,
            run: line + 4,
            exceeded: line + 8,
        },
        _ => Places {
            threshold: line,
            exceeded: line + 4,
            run: line + 5,
        },
    }
}
