//! Requests: valid, damaged and random.

use crate::apdu::{ACTION, ATTRIBUTES, GET, METHODS, SET, TAGS, data, request};
use crate::field;
use crate::random::Random;
use pillar::PAGE;

/// A request to the meter of this page.
pub fn draw(random: &mut Random, page: &[u8; PAGE]) -> Vec<u8> {
    let mut bytes = valid(random, page);
    match random.below(8) {
        0..4 => {}
        4 | 5 => damage(random, &mut bytes),
        6 => {
            damage(random, &mut bytes);
            damage(random, &mut bytes);
        }
        _ => bytes = any(random),
    }
    bytes
}

/// A whole request, mostly to something that is covered, and mostly of its type.
fn valid(random: &mut Random, page: &[u8; PAGE]) -> Vec<u8> {
    let service = random.pick(&[GET, SET, SET, ACTION]);
    let invoke_id = random.byte();
    let (mut object, mut tag) = match service {
        ACTION => {
            let row = &METHODS[random.below(METHODS.len())];
            (row.bytes, row.tag)
        }
        _ => {
            let row = &ATTRIBUTES[random.below(ATTRIBUTES.len())];
            (row.bytes, row.tag)
        }
    };
    if random.one_in(8) {
        other_object(random, &mut object);
    }
    if random.one_in(8) {
        tag = random.pick(&TAGS);
    }
    let number = value(random, page, tag);
    match service {
        GET => request(service, invoke_id, object, &[]),
        ACTION if random.one_in(8) => request(service, invoke_id, object, &[]),
        _ => request(service, invoke_id, object, &data(tag, number)),
    }
}

/// Another class, name, attribute or method, near or far.
fn other_object(random: &mut Random, object: &mut [u8; 9]) {
    match random.below(4) {
        0 => object[8] = random.below(12) as u8,
        1 => object[random.below(9)] ^= 1 << random.below(8),
        2 => object[1] = random.pick(&[1, 3, 8, 70, 71]),
        _ => object[random.below(9)] = random.byte(),
    }
}

/// A value at the edges of its range, about the page's own, or any.
fn value(random: &mut Random, page: &[u8; PAGE], tag: u8) -> u32 {
    let any = random.number();
    let fields = [
        field::THRESHOLD,
        field::OVER,
        field::UNDER,
        field::ALARMS,
        field::ERRORS,
    ];
    let own = field::get(page, random.pick(&fields));
    let edges = match tag {
        0x05 => [0, 1, 0x7fff_ffff, 0x8000_0000, u32::MAX, 3000],
        0x06 => [0, 1, 2, 86_400, 86_401, u32::MAX],
        0x16 => [0, 1, 4, 6, 7, 255],
        _ => [0, 1, 2, 127, 128, 255],
    };
    match random.below(8) {
        0..4 => random.pick(&edges),
        4 => any,
        5 => any & own,
        6 => any % 90_000,
        _ => random.below(8) as u32,
    }
}

/// Cuts a request, lengthens it, or changes a byte; mostly where its form is told.
fn damage(random: &mut Random, bytes: &mut Vec<u8>) {
    let length = bytes.len();
    match random.below(10) {
        0 => bytes.truncate(random.below(length + 1)),
        1 => bytes.truncate(length.saturating_sub(1)),
        2 => bytes.push(random.byte()),
        3 => bytes.extend(vec![0; 1 + random.below(300)]),
        4 => put(bytes, 12, random.pick(&[0, 1, 2, 3, 128, 255])),
        5 => put(
            bytes,
            13,
            random.pick(&[0, 1, 3, 5, 6, 9, 15, 16, 17, 18, 21, 22]),
        ),
        6 => put(
            bytes,
            0,
            random.pick(&[0xc0, 0xc1, 0xc2, 0xc3, 0xc4, 0xc8, 0xd0, 0]),
        ),
        7 => put(bytes, 1, random.pick(&[0, 2, 3, 4, 5, 129])),
        8 => put(bytes, random.below(length.max(1)), random.byte()),
        _ => {
            bytes.insert(random.below(length + 1), random.byte());
        }
    }
}

/// Any bytes, half of them behind the first two of a request.
fn any(random: &mut Random) -> Vec<u8> {
    let any = random.below(40);
    let length = random.pick(&[0, 12, 13, 14, 15, 18, 64, any, any]);
    let mut bytes: Vec<u8> = (0..length).map(|_| random.byte()).collect();
    if random.one_in(2) {
        put(&mut bytes, 0, random.pick(&[GET, SET, ACTION]));
        put(&mut bytes, 1, 1);
    }
    bytes
}

fn put(bytes: &mut [u8], place: usize, byte: u8) {
    if let Some(old) = bytes.get_mut(place) {
        *old = byte;
    }
}

/// The size of an answer buffer: mostly enough.
pub fn size(random: &mut Random) -> usize {
    match random.below(16) {
        0 => random.below(32),
        1 => 31,
        2 => 33 + random.below(300),
        3..8 => 40,
        _ => 32,
    }
}
