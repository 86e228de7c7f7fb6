//! Request A9 of document 02: every object, every answer, the order of the
//! answers and every form that is no request. All bytes are written by hand.

use plain::{
    ANSWER_BUFFER, Answered, CONNECTED, DISCONNECTED, LONGEST, Letter, Meter, PAGE, READY, Table,
    access_result, refusal,
};

const FILL: u8 = 0x5a;

// Class, name and attribute, or method.
const OUTPUT_STATE: [u8; 9] = [0, 70, 0, 0, 96, 3, 10, 255, 2];
const CONTROL_STATE: [u8; 9] = [0, 70, 0, 0, 96, 3, 10, 255, 3];
const CONTROL_MODE: [u8; 9] = [0, 70, 0, 0, 96, 3, 10, 255, 4];
const THRESHOLD: [u8; 9] = [0, 71, 0, 0, 17, 0, 0, 255, 4];
const OVER: [u8; 9] = [0, 71, 0, 0, 17, 0, 0, 255, 6];
const UNDER: [u8; 9] = [0, 71, 0, 0, 17, 0, 0, 255, 7];
const ERRORS: [u8; 9] = [0, 1, 0, 0, 97, 97, 0, 255, 2];
const ALARMS: [u8; 9] = [0, 1, 0, 0, 97, 98, 0, 255, 2];
const ALARM_FILTER: [u8; 9] = [0, 1, 0, 0, 97, 98, 10, 255, 2];
const DISCONNECT: [u8; 9] = [0, 70, 0, 0, 96, 3, 10, 255, 1];
const RECONNECT: [u8; 9] = [0, 70, 0, 0, 96, 3, 10, 255, 2];

/// The attributes, each with the tag of its data.
const ATTRIBUTES: [([u8; 9], u8); 9] = [
    (OUTPUT_STATE, 0x03),
    (CONTROL_STATE, 0x16),
    (CONTROL_MODE, 0x16),
    (THRESHOLD, 0x05),
    (OVER, 0x06),
    (UNDER, 0x06),
    (ERRORS, 0x06),
    (ALARMS, 0x06),
    (ALARM_FILTER, 0x06),
];

/// One whole data of each type.
const DATA: [&[u8]; 5] = [
    &[0x03, 1],
    &[0x05, 0, 0, 0, 1],
    &[0x06, 0, 0, 0, 1],
    &[0x0f, 1],
    &[0x16, 1],
];

fn get(object: [u8; 9]) -> Vec<u8> {
    [&[0xc0, 0x01, 0xc1][..], &object, &[0]].concat()
}

fn set(object: [u8; 9], data: &[u8]) -> Vec<u8> {
    [&[0xc1, 0x01, 0xc1][..], &object, &[0], data].concat()
}

fn set_number(object: [u8; 9], tag: u8, number: u32) -> Vec<u8> {
    set(object, &[&[tag][..], &number.to_be_bytes()].concat())
}

fn action(method: [u8; 9], data: &[u8]) -> Vec<u8> {
    let flag = u8::from(!data.is_empty());
    [&[0xc3, 0x01, 0xc1][..], &method, &[flag], data].concat()
}

/// A whole request of each row: reads, writes and methods.
fn requests() -> Vec<Vec<u8>> {
    let gets = ATTRIBUTES.iter().map(|&(object, _)| get(object));
    let sets = ATTRIBUTES.iter().map(|&(object, tag)| {
        let data = DATA.iter().find(|data| data[0] == tag);
        set(object, data.unwrap())
    });
    let methods = [DISCONNECT, RECONNECT];
    let actions = methods.iter().map(|&method| action(method, &[0x0f, 0]));
    let empty = methods.iter().map(|&method| action(method, &[]));
    gets.chain(sets).chain(actions).chain(empty).collect()
}

/// A number of its own in each field that a request reads.
fn meter() -> Meter {
    Meter {
        alarms: 0x0102_0304,
        alarm_count: 5,
        alarm_filter: 0x2122_2324,
        errors: 0x1112_1314,
        error_filter: 0x3132_3334,
        ..Meter::fresh(5, 0x4142_4344, 0x0151, 0x0161, 1000).unwrap()
    }
}

/// The number, the answer and the letter; the bytes past the answer have stayed.
fn ask(meter: &mut Meter, request: &[u8]) -> (Result<Option<Letter>, u8>, Vec<u8>) {
    let mut buffer = [FILL; 40];
    match meter.request(&Table::BuiltIn, request, &mut buffer) {
        Ok(Answered { length, letter }) => {
            let (answer, past) = buffer.split_at(length);
            assert!(past.iter().all(|&byte| byte == FILL), "{request:x?}");
            (Ok(letter), answer.to_vec())
        }
        Err(refusal) => {
            assert_eq!(buffer, [FILL; 40], "{request:x?}");
            (Err(refusal), Vec::new())
        }
    }
}

/// The answer to a request that leaves the record.
fn reads(meter: &Meter, request: &[u8]) -> Vec<u8> {
    let mut after = *meter;
    let (number, answer) = ask(&mut after, request);
    assert_eq!(number, Ok(None), "{request:x?}");
    assert_eq!(after, *meter, "{request:x?}");
    answer
}

/// The request is answered with success, and the meter is that of the call.
fn names(before: &Meter, request: &[u8], kind: u32, numbers: [u32; 3]) {
    let [first, second, third] = numbers;
    let mut called = *before;
    let letter = called.command(&Table::BuiltIn, kind, [first, second, third, 0, 0]);
    let mut after = *before;
    let (number, answer) = ask(&mut after, request);
    assert_eq!(number, letter, "{request:x?}");
    assert!(number.is_ok(), "{request:x?}");
    assert_eq!(after, called, "{request:x?}");
    let expected: &[u8] = match request[0] {
        0xc1 => &[0xc5, 0x01, 0xc1, 0],
        _ => &[0xc7, 0x01, 0xc1, 0, 0],
    };
    assert_eq!(answer, expected, "{request:x?}");
}

fn refused(request: &[u8]) {
    let mut after = meter();
    let (number, _) = ask(&mut after, request);
    assert_eq!(number, Err(refusal::REQUEST), "{request:x?}");
    assert_eq!(after, meter(), "{request:x?}");
}

/// The answer to a request with this result, for its service.
fn with_result(request: &[u8], result: u8) -> Vec<u8> {
    match request[0] {
        0xc0 => vec![0xc4, 0x01, request[2], 1, result],
        0xc1 => vec![0xc5, 0x01, request[2], result],
        _ => vec![0xc7, 0x01, request[2], result, 0],
    }
}

fn results_in(meter: &Meter, request: &[u8], result: u8) {
    let expected = with_result(request, result);
    assert_eq!(reads(meter, request), expected, "{request:x?}");
}

#[test]
fn each_attribute_is_read() {
    let answers: [&[u8]; 9] = [
        &[0xc4, 0x01, 0xc1, 0, 0x03, 1],
        &[0xc4, 0x01, 0xc1, 0, 0x16, 1],
        &[0xc4, 0x01, 0xc1, 0, 0x16, 5],
        &[0xc4, 0x01, 0xc1, 0, 0x05, 0x41, 0x42, 0x43, 0x44],
        &[0xc4, 0x01, 0xc1, 0, 0x06, 0, 0, 0x01, 0x51],
        &[0xc4, 0x01, 0xc1, 0, 0x06, 0, 0, 0x01, 0x61],
        &[0xc4, 0x01, 0xc1, 0, 0x06, 0x11, 0x12, 0x13, 0x14],
        &[0xc4, 0x01, 0xc1, 0, 0x06, 0x01, 0x02, 0x03, 0x04],
        &[0xc4, 0x01, 0xc1, 0, 0x06, 0x21, 0x22, 0x23, 0x24],
    ];
    for ((object, tag), answer) in ATTRIBUTES.into_iter().zip(answers) {
        assert_eq!(answer[4], tag);
        assert_eq!(reads(&meter(), &get(object)), answer, "{object:?}");
    }
}

/// "supply flows only in 1"; "A boolean true is written 1"
#[test]
fn the_output_is_on_in_state_1_alone() {
    for (switch, output) in [(DISCONNECTED, 0), (CONNECTED, 1), (READY, 0)] {
        let meter = Meter { switch, ..meter() };
        let answer = reads(&meter, &get(OUTPUT_STATE));
        assert_eq!(answer, [0xc4, 0x01, 0xc1, 0, 0x03, output]);
        let answer = reads(&meter, &get(CONTROL_STATE));
        assert_eq!(answer, [0xc4, 0x01, 0xc1, 0, 0x16, switch]);
    }
}

#[test]
fn a_set_is_the_call_that_it_names() {
    let meter = meter();
    for mode in 0..=6 {
        let request = set(CONTROL_MODE, &[0x16, mode]);
        for switch in [DISCONNECTED, CONNECTED, READY] {
            let meter = Meter { switch, ..meter };
            names(&meter, &request, 6, [mode.into(), 0, 0]);
        }
    }
    for threshold in [0, 1, 0x0708_090a, i32::MAX as u32] {
        let request = set_number(THRESHOLD, 0x05, threshold);
        names(&meter, &request, 7, [threshold, 0x0151, 0x0161]);
    }
    for duration in [1, 2, LONGEST] {
        let request = set_number(OVER, 0x06, duration);
        names(&meter, &request, 7, [0x4142_4344, duration, 0x0161]);
        let request = set_number(UNDER, 0x06, duration);
        names(&meter, &request, 7, [0x4142_4344, 0x0151, duration]);
    }
    for value in [0, 1, 0x0103_0506, u32::MAX] {
        names(&meter, &set_number(ERRORS, 0x06, value), 13, [!value, 0, 0]);
        names(&meter, &set_number(ALARMS, 0x06, value), 12, [!value, 0, 0]);
        let request = set_number(ALARM_FILTER, 0x06, value);
        names(&meter, &request, 10, [value, 0, 0]);
    }
}

/// "clearing the bits that are zero in the value"
#[test]
fn a_register_keeps_the_bits_of_the_value() {
    let mut meter = meter();
    assert_eq!(
        ask(&mut meter, &set_number(ERRORS, 0x06, 0xffff_ff00)).0,
        Ok(None)
    );
    assert_eq!(meter.errors, 0x1112_1300);
    assert_eq!(
        ask(&mut meter, &set_number(ALARMS, 0x06, 0x0000_ffff)).0,
        Ok(None)
    );
    assert_eq!((meter.alarms, meter.alarm_count), (0x0000_0304, 3));
    assert_eq!(
        ask(&mut meter, &set_number(ALARM_FILTER, 0x06, 0x0f0f_0f0f)).0,
        Ok(None)
    );
    assert_eq!((meter.alarm_filter, meter.alarms), (0x0f0f_0f0f, 0x0304));
    assert_eq!(meter.error_filter, 0x3132_3334);
}

#[test]
fn a_value_set_is_read_back() {
    for (object, data) in [
        (CONTROL_MODE, vec![0x16, 3]),
        (THRESHOLD, vec![0x05, 1, 2, 3, 4]),
        (OVER, vec![0x06, 0, 1, 2, 3]),
        (UNDER, vec![0x06, 0, 1, 2, 4]),
        (ERRORS, vec![0x06, 0, 0, 3, 4]),
        (ALARMS, vec![0x06, 0, 0, 3, 0]),
        (ALARM_FILTER, vec![0x06, 9, 8, 7, 6]),
    ] {
        let mut meter = Meter {
            alarms: u32::MAX,
            alarm_count: 32,
            errors: u32::MAX,
            ..meter()
        };
        assert_eq!(ask(&mut meter, &set(object, &data)).0, Ok(None));
        let answer = [&[0xc4, 0x01, 0xc1, 0][..], &data].concat();
        assert_eq!(reads(&meter, &get(object)), answer);
    }
}

#[test]
fn a_method_is_the_call_that_it_names() {
    for mode in 1..=6 {
        for switch in [DISCONNECTED, CONNECTED, READY] {
            let meter = Meter {
                mode,
                switch,
                ..meter()
            };
            // "its value ignored"
            for value in [0, 1, 127, 128, 255] {
                names(&meter, &action(DISCONNECT, &[0x0f, value]), 2, [0; 3]);
                names(&meter, &action(RECONNECT, &[0x0f, value]), 3, [0; 3]);
            }
        }
    }
}

#[test]
fn the_letter_of_the_move_is_handed_on() {
    let letter = |mode, switch, method| {
        let mut meter = Meter {
            mode,
            switch,
            ..meter()
        };
        ask(&mut meter, &action(method, &[0x0f, 0])).0
    };
    assert_eq!(letter(4, DISCONNECTED, RECONNECT), Ok(Some(Letter::A)));
    assert_eq!(letter(2, READY, RECONNECT), Ok(Some(Letter::A)));
    assert_eq!(letter(1, CONNECTED, DISCONNECT), Ok(Some(Letter::B)));
    assert_eq!(letter(6, READY, DISCONNECT), Ok(Some(Letter::C)));
    assert_eq!(letter(3, DISCONNECTED, RECONNECT), Ok(Some(Letter::D)));
    assert_eq!(letter(3, READY, RECONNECT), Ok(None));
    assert_eq!(letter(1, DISCONNECTED, DISCONNECT), Ok(None));
}

/// "type-unmatched; read-write-denied if not writable"
#[test]
fn another_type_is_type_unmatched_also_where_nothing_is_writable() {
    for (object, tag) in ATTRIBUTES {
        for data in DATA.into_iter().filter(|data| data[0] != tag) {
            results_in(&meter(), &set(object, data), access_result::TYPE_UNMATCHED);
        }
    }
    for value in 0..=255 {
        let request = set(OUTPUT_STATE, &[0x03, value]);
        results_in(&meter(), &request, access_result::READ_WRITE_DENIED);
        let request = set(CONTROL_STATE, &[0x16, value]);
        results_in(&meter(), &request, access_result::READ_WRITE_DENIED);
        // A boolean above 1 is a whole boolean, of another type here.
        let request = set(CONTROL_MODE, &[0x03, value]);
        results_in(&meter(), &request, access_result::TYPE_UNMATCHED);
    }
}

/// "a method takes an integer, its value ignored, and none at all is type-unmatched"
#[test]
fn a_method_without_an_integer_is_type_unmatched() {
    for mode in [0, 5] {
        let meter = Meter { mode, ..meter() };
        for method in [DISCONNECT, RECONNECT] {
            results_in(&meter, &action(method, &[]), access_result::TYPE_UNMATCHED);
            for data in DATA.into_iter().filter(|data| data[0] != 0x0f) {
                let request = action(method, data);
                results_in(&meter, &request, access_result::TYPE_UNMATCHED);
            }
        }
    }
}

/// "read-write-denied if ... 01's table refuses"
#[test]
fn what_the_table_refuses_is_denied() {
    let denied = |meter: &Meter, request: &[u8]| {
        results_in(meter, request, access_result::READ_WRITE_DENIED);
    };
    for mode in 7..=255 {
        denied(&meter(), &set(CONTROL_MODE, &[0x16, mode]));
    }
    for threshold in [-1, i32::MIN] {
        let request = set_number(THRESHOLD, 0x05, threshold as u32);
        denied(&meter(), &request);
    }
    for duration in [0, LONGEST + 1, 1 << 31, u32::MAX] {
        denied(&meter(), &set_number(OVER, 0x06, duration));
        denied(&meter(), &set_number(UNDER, 0x06, duration));
    }
    let always_connected = Meter { mode: 0, ..meter() };
    for method in [DISCONNECT, RECONNECT] {
        denied(&always_connected, &action(method, &[0x0f, 0]));
    }
}

/// "object-undefined for anything else", before the type of the data.
#[test]
fn anything_else_is_undefined() {
    let undefined = |request: &[u8]| {
        results_in(&meter(), request, access_result::OBJECT_UNDEFINED);
    };
    let attributes = ATTRIBUTES.map(|(object, _)| object);
    let methods = [DISCONNECT, RECONNECT];
    for place in 0..9 {
        for value in 0..=255 {
            for mut object in attributes {
                object[place] = value;
                if !attributes.contains(&object) {
                    undefined(&get(object));
                    DATA.iter().for_each(|data| undefined(&set(object, data)));
                }
            }
            for mut method in methods {
                method[place] = value;
                if !methods.contains(&method) {
                    undefined(&action(method, &[]));
                    DATA.iter()
                        .for_each(|data| undefined(&action(method, data)));
                }
            }
        }
    }
}

#[test]
fn the_invoke_id_comes_back_whole() {
    for mut request in requests() {
        for invoke_id in 0..=255 {
            request[2] = invoke_id;
            let (_, answer) = ask(&mut meter(), &request);
            let response = request[0] + 4;
            assert_eq!(answer[..3], [response, 0x01, invoke_id]);
        }
    }
}

#[test]
fn a_cut_request_and_one_with_a_byte_more_are_refused() {
    for request in requests() {
        for length in 0..request.len() {
            refused(&request[..length]);
        }
        for byte in 0..=255 {
            refused(&[&request[..], &[byte]].concat());
        }
        refused(&[&request[..], &request[..]].concat());
        refused(&[&request[..], &[0; 300]].concat());
    }
}

#[test]
fn another_service_or_choice_is_refused() {
    let services = [0xc0, 0xc1, 0xc3];
    for request in requests() {
        for byte in 0..=255 {
            let mut other = request.clone();
            other[0] = byte;
            if !services.contains(&byte) {
                refused(&other);
            }
            let mut other = request.clone();
            other[1] = byte;
            if byte != 1 {
                refused(&other);
            }
        }
    }
}

/// A GET is an ACTION without data; the other services have another form.
#[test]
fn a_service_has_its_own_form() {
    for request in requests() {
        for service in [0xc0, 0xc1, 0xc3] {
            let mut other = request.clone();
            other[0] = service;
            let whole = match (service, request[12]) {
                (0xc0, flag) => flag == 0 && request.len() == 13,
                (0xc1, flag) => flag == 0 && request.len() > 13,
                (_, flag) => usize::from(flag) == usize::from(request.len() > 13),
            };
            let (number, _) = ask(&mut meter(), &other);
            assert_eq!(number.is_ok(), whole, "{other:x?}");
        }
    }
}

/// "An optional-part flag other than 0 or 1, or an access selection present, is 20"
#[test]
fn another_flag_is_refused() {
    for request in requests() {
        for flag in (0..=255).filter(|&flag| flag != request[12]) {
            let mut other = request.clone();
            other[12] = flag;
            refused(&other);
        }
        // An access selection: selector 1 and a null-data.
        let mut selective = request;
        if selective[0] != 0xc3 {
            selective[12] = 1;
            selective.splice(13..13, [1, 0]);
            refused(&selective);
        }
    }
}

/// "Data is one boolean, enum, integer, double-long or double-long-unsigned, else 20"
#[test]
fn other_data_is_refused() {
    let tags = DATA.map(|data| data[0]);
    for tag in (0..=255).filter(|tag| !tags.contains(tag)) {
        for length in 0..=9 {
            let mut data = vec![0; length];
            data.insert(0, tag);
            for (object, _) in ATTRIBUTES {
                refused(&set(object, &data));
            }
            refused(&action(DISCONNECT, &data));
        }
    }
    for data in DATA {
        for length in 0..=9 {
            let mut other = data.to_vec();
            other.resize(length, 0);
            if length != data.len() && length > 0 {
                refused(&set(CONTROL_MODE, &other));
                refused(&action(DISCONNECT, &other));
            }
        }
        refused(&set(CONTROL_MODE, &[data, data].concat()));
    }
    // The octet string of the Green Book's example, and an array of one enum.
    refused(&set(CONTROL_MODE, &[0x09, 1, 3]));
    refused(&set(CONTROL_MODE, &[0x01, 1, 0x16, 3]));
    // A flag without its data.
    refused(&[&action(DISCONNECT, &[])[..12], &[1]].concat());
}

/// "21, answer buffer under 32 bytes; the order is 21, 12, 20"
#[test]
fn the_buffer_comes_first_then_the_record_then_the_request() {
    let whole = get(OUTPUT_STATE);
    let unsound = Meter { mode: 7, ..meter() };
    for size in 0..40 {
        let short = size < ANSWER_BUFFER;
        for (start, request) in [
            (meter(), &whole[..]),
            (meter(), &[][..]),
            (unsound, &whole),
            (unsound, &[]),
        ] {
            let expected = match (start == unsound, request.is_empty()) {
                _ if short => Err(refusal::ANSWER_BUFFER),
                (true, _) => Err(refusal::UNSOUND),
                (false, true) => Err(refusal::REQUEST),
                (false, false) => Ok(Answered {
                    length: 6,
                    letter: None,
                }),
            };
            let mut buffer = vec![FILL; size];
            let mut after = start;
            assert_eq!(
                after.request(&Table::BuiltIn, request, &mut buffer),
                expected
            );
            assert_eq!(after, start);
            let written = if expected.is_ok() { 6 } else { 0 };
            assert!(buffer[written..].iter().all(|&byte| byte == FILL));
        }
    }
}

/// "attribute 4 of class 71 is the normal threshold"
#[test]
fn the_normal_threshold_is_read_and_set_under_an_active_profile() {
    let table = Table::BuiltIn;
    let mut meter = Meter::fresh(5, 3000, 2, 3, 1000).unwrap();
    meter.command(&table, 16, [1, 7 << 16, 0, 0, 0]).unwrap();
    meter.command(&table, 17, [7, 1500, 0, 10, 0]).unwrap();
    meter.sample(&table, 0).unwrap();
    let normal = [0xc4, 0x01, 0xc1, 0, 0x05, 0, 0, 0x0b, 0xb8];
    assert_eq!(reads(&meter, &get(THRESHOLD)), normal);
    names(&meter, &set_number(THRESHOLD, 0x05, 9), 7, [9, 2, 3]);
    names(&meter, &set_number(OVER, 0x06, 9), 7, [3000, 9, 3]);
}

fn page_of(meter: &Meter) -> [u8; PAGE] {
    let mut page = [0; PAGE];
    meter.write_page(&Table::BuiltIn, &mut page).unwrap();
    page
}

#[test]
fn on_a_page_a_request_is_answered_as_on_its_meter() {
    let undefined = get([0, 8, 0, 0, 1, 0, 0, 255, 2]);
    let cut = vec![0xc0];
    for request in [requests(), vec![undefined, cut]].concat() {
        let mut after = meter();
        let mut page = page_of(&after);
        let mut buffers = [[FILL; 40]; 2];
        let [first, second] = &mut buffers;
        let answered = Meter::request_on_page(&mut page, &Table::BuiltIn, &request, first);
        assert_eq!(
            after.request(&Table::BuiltIn, &request, second),
            answered,
            "{request:x?}"
        );
        assert_eq!(buffers[0], buffers[1], "{request:x?}");
        assert_eq!(page, page_of(&after), "{request:x?}");
    }
}

/// "21, then 9, 10, 11 in 12's place, then 20"
#[test]
fn on_a_page_its_refusals_stand_between() {
    let page = page_of(&meter());
    let mut pair = page;
    pair[0] ^= 1;
    let mut unsound = page;
    unsound[36] = 7;
    let pages: [(&[u8], u8); 4] = [
        (&page[1..], refusal::LENGTH),
        (&pair, refusal::PAIR),
        (&unsound, refusal::UNSOUND_PAGE),
        (&page, refusal::REQUEST),
    ];
    for (page, number) in pages {
        for request in [&[][..], &[0xc0, 0x01]] {
            for size in [0, 31, 32, 33] {
                let expected = match size < 32 {
                    true => refusal::ANSWER_BUFFER,
                    false => number,
                };
                let mut after = page.to_vec();
                let mut buffer = vec![FILL; size];
                let answered =
                    Meter::request_on_page(&mut after, &Table::BuiltIn, request, &mut buffer);
                assert_eq!(answered, Err(expected));
                assert_eq!(after, page);
                assert!(buffer.iter().all(|&byte| byte == FILL));
            }
        }
    }
}

/// "soundness of log codes is against that table, which whatever tests soundness is
/// given" (02, A8)
#[test]
fn the_page_is_judged_under_its_table() {
    let own = Table::load(&[200, 1, 255, 4]).unwrap();
    let mut meter = meter();
    meter.event(&own, 200).unwrap();
    let mut page = [0; PAGE];
    meter.write_page(&own, &mut page).unwrap();
    let before = page;
    let mut buffer = [FILL; 40];
    let request = set_number(ERRORS, 0x06, 0);
    let refused = Meter::request_on_page(&mut page, &Table::BuiltIn, &request, &mut buffer);
    assert_eq!(refused, Err(refusal::UNSOUND_PAGE));
    let refused = meter.request(&Table::BuiltIn, &request, &mut buffer);
    assert_eq!(refused, Err(refusal::UNSOUND));
    assert_eq!((page, buffer), (before, [FILL; 40]));

    let answered = Meter::request_on_page(&mut page, &own, &request, &mut buffer);
    let success = Answered {
        length: 4,
        letter: None,
    };
    assert_eq!(answered, Ok(success));
    meter.clear_errors(&own, u32::MAX).unwrap();
    let mut cleared = [0; PAGE];
    meter.write_page(&own, &mut cleared).unwrap();
    assert_eq!(page, cleared);
}
