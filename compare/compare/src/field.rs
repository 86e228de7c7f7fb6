//! Where the fields lie in the page, for patches and for reports.

pub const MODE: usize = 36;
pub const SWITCH: usize = 37;
pub const OPENINGS: usize = 38;
pub const THRESHOLD: usize = 42;
pub const OVER: usize = 46;
pub const UNDER: usize = 50;
pub const EXCEEDED: usize = 54;
pub const RUN: usize = 55;
pub const CLOCK: usize = 59;
pub const ALARMS: usize = 63;
pub const ALARM_FILTER: usize = 67;
pub const ALARM_COUNT: usize = 71;
pub const ERRORS: usize = 72;
pub const ERROR_FILTER: usize = 76;
pub const LOGS: [usize; 3] = [80, 241, 402];
pub const LINES: usize = 32;
pub const PROFILE_ID: usize = 563;
pub const PROFILE_THRESHOLD: usize = 565;
pub const ACTIVATION: usize = 569;
pub const DURATION: usize = 573;
pub const LEFT: usize = 577;
pub const STATE: usize = 581;
pub const COUNT: usize = 582;
pub const IDS: usize = 583;
pub const GROUPS: usize = 8;

/// The switch at Connected and at Ready for reconnection.
pub const CONNECTED: u8 = 1;
pub const READY: u8 = 2;

/// The states of an emergency profile.
pub const WAITING: u8 = 1;
pub const ACTIVE: u8 = 2;

const FIELDS: [(usize, &str); 23] = [
    (0, "pairs"),
    (MODE, "mode"),
    (SWITCH, "switch"),
    (OPENINGS, "openings"),
    (THRESHOLD, "threshold"),
    (OVER, "Over"),
    (UNDER, "Under"),
    (EXCEEDED, "Exceeded"),
    (RUN, "Run"),
    (CLOCK, "clock"),
    (ALARMS, "alarms"),
    (ALARM_FILTER, "alarm filter"),
    (ALARM_COUNT, "alarms standing"),
    (ERRORS, "errors"),
    (ERROR_FILTER, "error filter"),
    (PROFILE_ID, "profile id"),
    (PROFILE_THRESHOLD, "emergency threshold"),
    (ACTIVATION, "activation"),
    (DURATION, "emergency duration"),
    (LEFT, "samples left"),
    (STATE, "profile state"),
    (COUNT, "group count"),
    (IDS, "group ids"),
];

/// The clock of a line, its code four bytes on.
pub fn line(log: usize, place: usize) -> usize {
    LOGS[log] + 1 + 5 * place
}

/// The codes of a log, the newest first.
pub fn newest_codes(page: &[u8], log: usize) -> impl Iterator<Item = u8> {
    let count = usize::from(page[LOGS[log]]).min(LINES);
    let places = (0..count).rev();
    places.map(move |place| page[line(log, place) + 4])
}

/// The field that a byte of the page belongs to.
pub fn name(byte: usize) -> String {
    if byte >= pillar::PAGE {
        return String::from("past the page");
    }
    let log = LOGS.iter().rposition(|&start| byte >= start);
    if let Some(log) = log.filter(|_| byte < PROFILE_ID) {
        return name_in_log(log, byte - LOGS[log]);
    }
    let field = FIELDS.iter().rfind(|field| byte >= field.0);
    String::from(field.map_or("pairs", |field| field.1))
}

fn name_in_log(log: usize, byte: usize) -> String {
    let log = log + 1;
    if byte == 0 {
        return format!("log {log}, count");
    }
    let line = (byte - 1) / 5 + 1;
    let part = if (byte - 1) % 5 < 4 { "clock" } else { "code" };
    format!("log {log}, line {line}, {part}")
}

/// The group ids that the page holds.
pub fn ids(page: &[u8]) -> Vec<u16> {
    let count = usize::from(page[COUNT]).min(GROUPS);
    let (ids, _) = page[IDS..].as_chunks::<2>();
    let held = ids.iter().take(count);
    held.map(|id| u16::from_be_bytes(*id)).collect()
}

/// Sets the alarm register and how many of its bits stand.
pub fn put_alarms(page: &mut [u8], alarms: u32) {
    put(page, ALARMS, alarms);
    page[ALARM_COUNT] = alarms.count_ones() as u8;
}

pub fn get(page: &[u8], field: usize) -> u32 {
    let bytes = page[field..].first_chunk().expect("a field of the page");
    u32::from_be_bytes(*bytes)
}

pub fn put(page: &mut [u8], field: usize, value: u32) {
    page[field..field + 4].copy_from_slice(&value.to_be_bytes());
}

#[cfg(test)]
mod tests {
    use super::*;

    #[test]
    fn bytes_have_their_names() {
        assert_eq!(name(0), "pairs");
        assert_eq!(name(35), "pairs");
        assert_eq!(name(36), "mode");
        assert_eq!(name(41), "openings");
        assert_eq!(name(54), "Exceeded");
        assert_eq!(name(58), "Run");
        assert_eq!(name(66), "alarms");
        assert_eq!(name(70), "alarm filter");
        assert_eq!(name(71), "alarms standing");
        assert_eq!(name(72), "errors");
        assert_eq!(name(79), "error filter");
        assert_eq!(name(80), "log 1, count");
        assert_eq!(name(81), "log 1, line 1, clock");
        assert_eq!(name(245), "log 2, line 1, clock");
        assert_eq!(name(246), "log 2, line 1, code");
        assert_eq!(name(562), "log 3, line 32, code");
        assert_eq!(name(563), "profile id");
        assert_eq!(name(568), "emergency threshold");
        assert_eq!(name(580), "samples left");
        assert_eq!(name(581), "profile state");
        assert_eq!(name(582), "group count");
        assert_eq!(name(598), "group ids");
        assert_eq!(name(599), "past the page");
    }
}
