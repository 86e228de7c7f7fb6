//! Damaged pages: what a worn memory or a wrong writer would hand over.

use crate::field::{
    self, ALARM_COUNT, ALARM_FILTER, ALARMS, ERRORS, EXCEEDED, LOG_LINES, LOGS, MODE, OVER, RUN,
    SWITCH, THRESHOLD, UNDER,
};
use crate::random::Random;
use crate::table::EventTable;
use plain::three_phase::{LINES, PAGE};

/// The page with one piece of damage, or with several, so that the order of the
/// refusals shows.
pub fn damaged(random: &mut Random, page: &[u8; PAGE], table: &EventTable) -> Vec<u8> {
    let mut bytes = page.to_vec();
    damage(random, &mut bytes, table);
    while random.one_in(4) {
        damage(random, &mut bytes, table);
    }
    if random.one_in(16) {
        resize(random, &mut bytes);
    }
    bytes
}

/// Changes bytes of a whole page.
fn damage(random: &mut Random, page: &mut [u8], table: &EventTable) {
    match random.below(14) {
        0 => page[random.below(PAGE)] = random.byte(),
        1 => page[random.below(PAGE)] ^= 1 << random.below(8),
        2 => page[random.below(MODE)] ^= 1 << random.below(8),
        3 => swap_pairs(random, page),
        4 => {
            let place = field::of_line(EXCEEDED, random.below(LINES));
            page[place] = random.pick(&[0, 1, 2, 3, 128, 255]);
        }
        5 => damage_count(random, page),
        6 => damage_code(random, page, table),
        7 => damage_past_count(random, page),
        8 => page[MODE] = random.pick(&[0, 1, 6, 7, 128, 255]),
        9 => page[SWITCH] = random.pick(&[0, 1, 2, 3, 255]),
        10 => damage_alarms(random, page),
        11 => page[OVER + random.below(field::CLOCK - OVER)] = random.byte(),
        _ => damage_limiter(random, page),
    }
}

fn resize(random: &mut Random, bytes: &mut Vec<u8>) {
    let any = random.below(2 * PAGE + 2);
    let length = random.pick(&[PAGE - 1, PAGE + 1, 0, 1, MODE, pillar::PAGE, 2 * PAGE, any]);
    bytes.resize(length, 0);
}

fn swap_pairs(random: &mut Random, page: &mut [u8]) {
    let (first, second) = (random.below(8), random.below(8));
    for byte in 0..4 {
        page.swap(4 * first + byte, 4 * second + byte);
    }
}

fn damage_count(random: &mut Random, page: &mut [u8]) {
    let count = &mut page[LOGS[random.below(3)]];
    let near = [count.wrapping_add(1), count.wrapping_sub(1)];
    *count = random.pick(&[near[0], near[1], 0, 32, 33, 128, 255]);
}

/// A code of the table, or one at the edge of some log's own codes, in any line.
fn damage_code(random: &mut Random, page: &mut [u8], table: &EventTable) {
    const CODES: [u8; 22] = [
        0, 1, 3, 4, 9, 10, 16, 17, 39, 40, 46, 47, 58, 59, 67, 68, 69, 70, 127, 128, 254, 255,
    ];
    let line = field::log_line(random.below(3), random.below(LOG_LINES));
    let [listed, ..] = random.pick(table.lines());
    let edge = random.pick(&CODES);
    page[line + 4] = random.pick(&[listed, edge]);
}

fn damage_past_count(random: &mut Random, page: &mut [u8]) {
    let log = random.below(3);
    let count = usize::from(page[LOGS[log]]);
    if count >= LOG_LINES {
        return;
    }
    let line = field::log_line(log, count + random.below(LOG_LINES - count));
    page[line + random.below(5)] = 1 << random.below(8);
}

/// A bit of the register, or the count: one more or fewer, or that of another
/// number that stands beside it.
fn damage_alarms(random: &mut Random, page: &mut [u8]) {
    if random.one_in(3) {
        page[ALARMS + random.below(4)] ^= 1 << random.below(8);
        return;
    }
    let count = page[ALARM_COUNT];
    let near = [count.wrapping_add(1), count.wrapping_sub(1)];
    let alarms = field::get(page, ALARMS);
    let filter = field::get(page, ALARM_FILTER);
    let others = [filter, alarms & !filter, field::get(page, ERRORS)];
    let others = others.map(|number| number.count_ones() as u8);
    let edges = [0, 32, 33, 128, 255];
    page[ALARM_COUNT] = random.pick(&[&near[..], &others, &edges].concat());
}

/// A duration, or a line's threshold or Run; some of these leave the page sound.
fn damage_limiter(random: &mut Random, page: &mut [u8]) {
    let line = random.below(LINES);
    let over = field::get(page, OVER);
    let under = field::get(page, UNDER);
    let edges = [0, 1, 2, 86_400, 86_401, 1 << 31];
    match random.below(6) {
        0 => page[field::of_line(THRESHOLD, line)] ^= 0x80,
        1 => field::put(page, OVER, random.pick(&edges)),
        2 => field::put(page, UNDER, random.pick(&edges)),
        3 => page[field::of_line(EXCEEDED, line)] ^= 1,
        _ => {
            let runs = [over, over.wrapping_sub(1), under, under.wrapping_sub(1)];
            field::put(page, field::of_line(RUN, line), random.pick(&runs));
        }
    }
}
