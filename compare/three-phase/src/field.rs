//! Where the fields lie in the three-phase page, for patches and for reports.

use plain::three_phase::{LINES as LIMITER_LINES, PAGE};

pub const MODE: usize = 32;
pub const SWITCH: usize = 33;
pub const OPENINGS: usize = 34;
pub const OVER: usize = 38;
pub const UNDER: usize = 42;
/// Of L1; the further lines follow at [`LIMITER_LINE`].
pub const THRESHOLD: usize = 46;
pub const EXCEEDED: usize = 50;
pub const RUN: usize = 51;
/// From a line of the limiter to the next.
pub const LIMITER_LINE: usize = 9;
pub const CLOCK: usize = 82;
pub const ALARMS: usize = 86;
pub const ALARM_FILTER: usize = 90;
pub const ALARM_COUNT: usize = 94;
pub const ERRORS: usize = 95;
pub const ERROR_FILTER: usize = 99;
pub const LOGS: [usize; 3] = [103, 264, 425];
/// The most lines of a log.
pub const LOG_LINES: usize = 32;

/// The switch at Connected and at Ready for reconnection.
pub const CONNECTED: u8 = 1;
pub const READY: u8 = 2;

/// The lines of the limiter by name.
pub const LIMITER_NAMES: [&str; LIMITER_LINES] = ["L1", "L2", "L3", "sum"];

const FIELDS: [(usize, &str); 12] = [
    (0, "pairs"),
    (MODE, "mode"),
    (SWITCH, "switch"),
    (OPENINGS, "openings"),
    (OVER, "Over"),
    (UNDER, "Under"),
    (CLOCK, "clock"),
    (ALARMS, "alarms"),
    (ALARM_FILTER, "alarm filter"),
    (ALARM_COUNT, "alarms standing"),
    (ERRORS, "errors"),
    (ERROR_FILTER, "error filter"),
];

/// Where a line of a log begins.
pub const fn log_line(log: usize, line: usize) -> usize {
    LOGS[log] + 1 + 5 * line
}

/// Threshold, Exceeded or Run of a line of the limiter.
pub const fn of_line(field: usize, line: usize) -> usize {
    field + LIMITER_LINE * line
}

pub fn thresholds(page: &[u8]) -> [i32; LIMITER_LINES] {
    [0, 1, 2, 3].map(|line| get(page, of_line(THRESHOLD, line)) as i32)
}

pub fn exceeded(page: &[u8]) -> [bool; LIMITER_LINES] {
    [0, 1, 2, 3].map(|line| page[of_line(EXCEEDED, line)] != 0)
}

pub fn runs(page: &[u8]) -> [u32; LIMITER_LINES] {
    [0, 1, 2, 3].map(|line| get(page, of_line(RUN, line)))
}

/// Sets the alarm register and how many of its bits stand.
pub fn put_alarms(page: &mut [u8], alarms: u32) {
    put(page, ALARMS, alarms);
    page[ALARM_COUNT] = alarms.count_ones() as u8;
}

pub fn get(page: &[u8], field: usize) -> u32 {
    let bytes = page[field..].first_chunk().expect("a field of the page");
    u32::from_be_bytes(*bytes)
}

pub fn put(page: &mut [u8], field: usize, value: u32) {
    page[field..field + 4].copy_from_slice(&value.to_be_bytes());
}

/// The field that a byte of the page belongs to.
pub fn name(byte: usize) -> String {
    if byte >= PAGE {
        return String::from("past the page");
    }
    if let Some(log) = LOGS.iter().rposition(|&start| byte >= start) {
        return name_in_log(log, byte - LOGS[log]);
    }
    if (THRESHOLD..CLOCK).contains(&byte) {
        return name_in_limiter(byte - THRESHOLD);
    }
    let field = FIELDS.iter().rfind(|field| byte >= field.0);
    String::from(field.map_or("pairs", |field| field.1))
}

fn name_in_limiter(byte: usize) -> String {
    let line = LIMITER_NAMES[byte / LIMITER_LINE];
    let part = match byte % LIMITER_LINE {
        0..4 => "threshold",
        4 => "Exceeded",
        _ => "Run",
    };
    format!("{line}, {part}")
}

fn name_in_log(log: usize, byte: usize) -> String {
    let log = log + 1;
    if byte == 0 {
        return format!("log {log}, count");
    }
    let line = (byte - 1) / 5 + 1;
    let part = if (byte - 1) % 5 < 4 { "clock" } else { "code" };
    format!("log {log}, line {line}, {part}")
}

#[cfg(test)]
mod tests {
    use super::*;

    #[test]
    fn bytes_have_their_names() {
        for (byte, expected) in [
            (31, "pairs"),
            (32, "mode"),
            (33, "switch"),
            (37, "openings"),
            (38, "Over"),
            (45, "Under"),
            (46, "L1, threshold"),
            (50, "L1, Exceeded"),
            (51, "L1, Run"),
            (55, "L2, threshold"),
            (68, "L3, Exceeded"),
            (81, "sum, Run"),
            (82, "clock"),
            (89, "alarms"),
            (93, "alarm filter"),
            (94, "alarms standing"),
            (95, "errors"),
            (102, "error filter"),
            (103, "log 1, count"),
            (104, "log 1, line 1, clock"),
            (269, "log 2, line 1, code"),
            (585, "log 3, line 32, code"),
            (586, "past the page"),
        ] {
            assert_eq!(name(byte), expected);
        }
    }
}
