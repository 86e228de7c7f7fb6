//! What form a request has, told from its bytes alone: whole, or what is wrong.

use crate::apdu::{ACTION, GET, SET, TAGS, width};

/// Every form. Whole ones are told by their service; the others are number 20.
pub const FORMS: [&str; 22] = [
    "GET",
    "SET",
    "ACTION with data",
    "ACTION without data",
    "no byte",
    "1 to 12 bytes",
    "another service",
    "another choice",
    "GET, flag 1",
    "GET, flag above 1",
    "GET, bytes behind",
    "SET, flag 1",
    "SET, flag above 1",
    "SET, no data",
    "SET, other data",
    "SET, data cut",
    "SET, bytes behind",
    "ACTION, flag above 1",
    "ACTION, flag 0 and bytes behind",
    "ACTION, no data or other data",
    "ACTION, data cut",
    "ACTION, bytes behind",
];

/// How many of them are whole: the first.
pub const WHOLE: usize = 4;

pub fn of(request: &[u8]) -> &'static str {
    FORMS[place(request)]
}

pub fn is_whole(request: &[u8]) -> bool {
    place(request) < WHOLE
}

/// Whether there is a boolean whose byte is above 1.
pub fn has_wide_boolean(request: &[u8]) -> bool {
    is_whole(request) && request.len() == 15 && request[13] == 0x03 && request[14] > 1
}

fn place(request: &[u8]) -> usize {
    let (Some(&[service, choice]), Some(&flag)) = (request.first_chunk(), request.get(12)) else {
        return if request.is_empty() { 4 } else { 5 };
    };
    let behind = &request[13..];
    match (service, choice, flag) {
        (GET | SET | ACTION, 2.. | 0, _) => 7,
        (GET, _, 0) if behind.is_empty() => 0,
        (GET, _, 0) => 10,
        (GET, _, 1) => 8,
        (GET, ..) => 9,
        (SET, _, 0) => match of_data(behind) {
            Data::Whole => 1,
            Data::Missing => 13,
            Data::Other => 14,
            Data::Cut => 15,
            Data::BytesBehind => 16,
        },
        (SET, _, 1) => 11,
        (SET, ..) => 12,
        (ACTION, _, 0) if behind.is_empty() => 3,
        (ACTION, _, 0) => 18,
        (ACTION, _, 1) => match of_data(behind) {
            Data::Whole => 2,
            Data::Missing | Data::Other => 19,
            Data::Cut => 20,
            Data::BytesBehind => 21,
        },
        (ACTION, ..) => 17,
        _ => 6,
    }
}

enum Data {
    Whole,
    Missing,
    Other,
    Cut,
    BytesBehind,
}

fn of_data(bytes: &[u8]) -> Data {
    let Some(&tag) = bytes.first() else {
        return Data::Missing;
    };
    if !TAGS.contains(&tag) {
        return Data::Other;
    }
    match bytes.len().cmp(&(1 + width(tag))) {
        std::cmp::Ordering::Less => Data::Cut,
        std::cmp::Ordering::Equal => Data::Whole,
        std::cmp::Ordering::Greater => Data::BytesBehind,
    }
}

#[cfg(test)]
mod tests {
    use super::*;

    const HEAD: [u8; 12] = [0, 1, 0xc1, 0, 70, 0, 0, 96, 3, 10, 255, 4];

    fn form(service: u8, behind: &[u8]) -> &'static str {
        let mut request = [&HEAD[..], behind].concat();
        request[0] = service;
        of(&request)
    }

    #[test]
    fn forms_are_told() {
        for (service, behind, expected) in [
            (GET, &[0][..], "GET"),
            (GET, &[1], "GET, flag 1"),
            (GET, &[2], "GET, flag above 1"),
            (GET, &[0, 0], "GET, bytes behind"),
            (SET, &[0, 0x16, 1], "SET"),
            (SET, &[1, 0x16, 1], "SET, flag 1"),
            (SET, &[255, 0x16, 1], "SET, flag above 1"),
            (SET, &[0], "SET, no data"),
            (SET, &[0, 0x11, 1], "SET, other data"),
            (SET, &[0, 0x06, 1, 2, 3], "SET, data cut"),
            (SET, &[0, 0x0f], "SET, data cut"),
            (SET, &[0, 0x06, 1, 2, 3, 4, 5], "SET, bytes behind"),
            (ACTION, &[0], "ACTION without data"),
            (ACTION, &[0, 0x0f, 0], "ACTION, flag 0 and bytes behind"),
            (ACTION, &[1, 0x0f, 0], "ACTION with data"),
            (ACTION, &[1], "ACTION, no data or other data"),
            (ACTION, &[1, 0, 0], "ACTION, no data or other data"),
            (ACTION, &[1, 0x0f], "ACTION, data cut"),
            (ACTION, &[1, 0x0f, 0, 0], "ACTION, bytes behind"),
            (ACTION, &[2, 0x0f, 0], "ACTION, flag above 1"),
            (0xc2, &[0], "another service"),
            (GET, &[], "1 to 12 bytes"),
        ] {
            assert_eq!(form(service, behind), expected, "{service:x} {behind:x?}");
        }
        assert_eq!(of(&[]), "no byte");
        assert_eq!(
            of(&[&[GET, 3][..], &HEAD[2..], &[0]].concat()),
            "another choice"
        );
        assert!(has_wide_boolean(
            &[&[SET][..], &HEAD[1..], &[0, 3, 2]].concat()
        ));
        assert!(!has_wide_boolean(
            &[&[SET][..], &HEAD[1..], &[0, 3, 1]].concat()
        ));
    }
}
