//! The attributes and methods that are covered, and requests to them as bytes.

/// A row of request A9: class, name and attribute or method as bytes.
pub struct Row {
    pub name: &'static str,
    pub bytes: [u8; 9],
    /// The tag of its data.
    pub tag: u8,
    pub writable: bool,
    /// Whether document 01's table refuses some value.
    pub refusable: bool,
}

const fn row(name: &'static str, bytes: [u8; 9], tag: u8, writable: bool, refusable: bool) -> Row {
    Row {
        name,
        bytes,
        tag,
        writable,
        refusable,
    }
}

pub const ATTRIBUTES: [Row; 9] = [
    row(
        "output state",
        [0, 70, 0, 0, 96, 3, 10, 255, 2],
        0x03,
        false,
        false,
    ),
    row(
        "control state",
        [0, 70, 0, 0, 96, 3, 10, 255, 3],
        0x16,
        false,
        false,
    ),
    row(
        "control mode",
        [0, 70, 0, 0, 96, 3, 10, 255, 4],
        0x16,
        true,
        true,
    ),
    row(
        "normal threshold",
        [0, 71, 0, 0, 17, 0, 0, 255, 4],
        0x05,
        true,
        true,
    ),
    row(
        "over duration",
        [0, 71, 0, 0, 17, 0, 0, 255, 6],
        0x06,
        true,
        true,
    ),
    row(
        "under duration",
        [0, 71, 0, 0, 17, 0, 0, 255, 7],
        0x06,
        true,
        true,
    ),
    row("errors", [0, 1, 0, 0, 97, 97, 0, 255, 2], 0x06, true, false),
    row("alarms", [0, 1, 0, 0, 97, 98, 0, 255, 2], 0x06, true, false),
    row(
        "alarm filter",
        [0, 1, 0, 0, 97, 98, 10, 255, 2],
        0x06,
        true,
        false,
    ),
];

pub const METHODS: [Row; 2] = [
    row(
        "remote disconnect",
        [0, 70, 0, 0, 96, 3, 10, 255, 1],
        0x0f,
        true,
        true,
    ),
    row(
        "remote reconnect",
        [0, 70, 0, 0, 96, 3, 10, 255, 2],
        0x0f,
        true,
        true,
    ),
];

/// The tags of data that a request may have.
pub const TAGS: [u8; 5] = [0x03, 0x05, 0x06, 0x0f, 0x16];

pub const GET: u8 = 0xc0;
pub const SET: u8 = 0xc1;
pub const ACTION: u8 = 0xc3;

/// The bytes of a value behind its tag.
pub fn width(tag: u8) -> usize {
    match tag {
        0x05 | 0x06 => 4,
        _ => 1,
    }
}

/// Data of a type: its low bytes of the number.
pub fn data(tag: u8, number: u32) -> Vec<u8> {
    let mut bytes = vec![tag];
    bytes.extend(&number.to_be_bytes()[4 - width(tag)..]);
    bytes
}

/// A request without data, or with it; the flag is that of a whole request.
pub fn request(service: u8, invoke_id: u8, object: [u8; 9], data: &[u8]) -> Vec<u8> {
    let flag = u8::from(service == ACTION && !data.is_empty());
    [&[service, 1, invoke_id][..], &object, &[flag], data].concat()
}
