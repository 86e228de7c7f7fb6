//! Meters: fresh ones and the calls that make histories of them, between requests.

use crate::field;
use crate::random::Random;
use pillar::{PAGE, Settings};

/// The page of a fresh meter.
pub fn fresh(settings: Settings) -> [u8; PAGE] {
    let mut page = [0; PAGE];
    pillar::fresh(&mut page, settings).expect("settings in range");
    page
}

/// Settings that are accepted.
pub fn settings(random: &mut Random) -> Settings {
    Settings {
        mode: random.below(7) as u32,
        threshold: random.pick(&[0, 1, 3000, 0x0102_0304, i32::MAX]),
        over: random.pick(&[1, 2, 3, 0x0102, 86_400]),
        under: random.pick(&[1, 2, 3, 0x0103, 86_400]),
        clock: random.number(),
    }
}

/// The bytes of a table: none, a good one, or one with a byte changed.
pub fn table(random: &mut Random) -> Vec<u8> {
    const CODES: [u8; 8] = [0, 3, 6, 40, 68, 70, 200, 254];
    const BITS: [u8; 5] = [0, 1, 13, 31, 255];
    if random.one_in(2) {
        return Vec::new();
    }
    let mut bytes = Vec::new();
    for code in CODES {
        if random.one_in(2) {
            let log = 1 + random.below(3) as u8;
            bytes.extend([code, log, random.pick(&BITS), random.pick(&BITS)]);
        }
    }
    if random.one_in(4) && !bytes.is_empty() {
        let place = random.below(bytes.len());
        bytes[place] = random.byte();
    }
    bytes
}

/// A call that moves the switch, a register or the limiter, or an emergency profile;
/// an event may be one of the table.
pub fn call(random: &mut Random, page: &[u8; PAGE], table: &[u8]) -> (u32, [u32; 5]) {
    const CODES: [u32; 18] = [
        1, 2, 6, 7, 8, 12, 13, 14, 15, 16, 40, 41, 42, 43, 44, 45, 46, 68,
    ];
    let kind = random.pick(&[1, 1, 1, 2, 3, 4, 5, 5, 6, 7, 8, 9, 9, 9, 10, 11, 14, 16, 17]);
    let mut numbers = [random.number(); 5];
    let threshold = field::get(page, field::THRESHOLD);
    match kind {
        1 => numbers[0] = threshold.wrapping_add(random.below(2) as u32),
        6 => numbers[0] = random.below(8) as u32,
        7 => {
            let settings = settings(random);
            let Settings { over, under, .. } = settings;
            numbers = [settings.threshold.cast_unsigned(), over, under, 0, 0];
        }
        9 if !table.is_empty() => numbers[0] = table[4 * random.below(table.len() / 4)].into(),
        9 => numbers[0] = random.pick(&CODES),
        10 | 11 if random.one_in(2) => numbers[0] &= 0x3f03,
        14 => numbers[0] = random.below(4) as u32,
        16 => numbers = [2, 7 << 16 | 9, 0, 0, 0],
        // Active with the next sample, for some samples.
        17 => numbers = [7, random.pick(&[threshold, threshold / 2, 1500]), 0, 4, 0],
        _ => {}
    }
    (kind, numbers)
}

/// A page that calls reach late or never, if it is sound: all bits in the
/// registers, a switch and a mode of their own.
pub fn patched(random: &mut Random, page: &[u8; PAGE]) -> [u8; PAGE] {
    let mut page = *page;
    match random.below(3) {
        0 => {
            let alarms = random.number() | random.number();
            field::put_alarms(&mut page, alarms);
            field::put(&mut page, field::ERRORS, random.number() | random.number());
        }
        1 => {
            page[field::MODE] = random.below(7) as u8;
            page[field::SWITCH] = random.below(3) as u8;
        }
        _ => field::put(&mut page, field::OPENINGS, u32::MAX),
    }
    page
}

/// A page that is no good for its length, its pairs or what it holds, or still good.
pub fn damaged(random: &mut Random, page: &[u8; PAGE]) -> Vec<u8> {
    let mut bytes = page.to_vec();
    match random.below(5) {
        0 => bytes.truncate(random.below(PAGE)),
        1 => bytes.extend(vec![0; 1 + random.below(40)]),
        2 => bytes[random.below(36)] ^= 1 << random.below(8),
        3 => bytes[field::MODE] = 7,
        _ => bytes[random.below(PAGE)] ^= 1 << random.below(8),
    }
    if random.one_in(3) {
        let place = random.below(bytes.len().max(1));
        if let Some(byte) = bytes.get_mut(place) {
            *byte = random.byte();
        }
    }
    bytes
}
