//! Document 01's worked example and page, and the rules around them.

use plain::{
    ACTIVE, CONNECTED, DISCONNECT, DISCONNECTED, EmergencyProfile, FRAUD, Groups, LONGEST,
    LONGEST_EMERGENCY, Letter, Meter, PAGE, READY, STANDARD, TABLE_LINES, Table, Vectorised,
    WAITING, refusal,
};

const BUILT_IN: &Table = &Table::BuiltIn;

const FRESH: (u32, [u32; 5]) = (0, [5, 3000, 2, 3, 1000]);

/// "samples 3000, 3001, 3001; call 5; samples 0, −5, 0; call 2; call 5;
/// script 3; script 2; mode 7; mode 0; call 2"
const CALLS: [(u32, u32); 14] = [
    (1, 3000),
    (1, 3001),
    (1, 3001),
    (5, 0),
    (1, 0),
    (1, -5_i32 as u32),
    (1, 0),
    (2, 0),
    (5, 0),
    (15, 3),
    (15, 2),
    (6, 7),
    (6, 0),
    (2, 0),
];

const LISTING: &str = "\
1 0 1 0
2 0 1 0
3 0 1 0
4 0 2 1
5 0 1 1
6 0 1 1
7 0 1 1
8 0 1 1
9 0 0 2
10 0 0 2
11 3 0 2
12 0 2 2
13 1 2 2
14 0 1 2
15 2 1 2
";

fn example() -> Meter {
    Meter::fresh(5, 3000, 2, 3, 1000).unwrap()
}

fn worked() -> (Meter, String) {
    let mut meter = example();
    let mut listing = String::from("1 0 1 0\n");
    for (place, &(kind, number)) in CALLS.iter().enumerate() {
        let answer = meter.command(BUILT_IN, kind, [number, 0, 0, 0, 0]);
        let refusal = answer.err().unwrap_or(0);
        let line = format!(
            "{} {refusal} {} {}\n",
            place + 2,
            meter.switch,
            meter.openings
        );
        listing.push_str(&line);
    }
    (meter, listing)
}

fn page_of(meter: &Meter) -> [u8; PAGE] {
    let mut page = [0xaa; PAGE];
    meter.write_page(BUILT_IN, &mut page).unwrap();
    page
}

fn record(kind: u32, numbers: [u32; 5]) -> Vec<u8> {
    let mut bytes = vec![kind as u8];
    for number in numbers {
        bytes.extend(number.to_be_bytes());
    }
    bytes
}

fn list() -> Vec<u8> {
    let mut bytes = record(FRESH.0, FRESH.1);
    for (kind, number) in CALLS {
        bytes.extend(record(kind, [number, 7, 7, 7, 7]));
    }
    bytes
}

#[test]
fn worked_example_gives_the_listing() {
    assert_eq!(worked().1, LISTING);
}

/// "Log 3 then: 65, 64, 61 at 1003; 66, 62, 59, 63 at 1006."; "The 66 drops out
/// of 01's example log" (02, A5)
#[test]
fn worked_example_gives_log_3() {
    let lines: Vec<_> = worked().0.logs[DISCONNECT].lines().collect();
    let early = [65, 64, 61].map(|code| (1003, code));
    let late = [62, 59, 63].map(|code| (1006, code));
    assert_eq!(lines, [&early[..], &late[..]].concat());
}

#[test]
fn worked_example_gives_the_letters() {
    let mut meter = example();
    let answers = CALLS.map(|(kind, number)| meter.command(BUILT_IN, kind, [number, 0, 0, 0, 0]));
    let letters = answers.map(|answer| answer.ok().flatten().map_or('-', Letter::as_char));
    assert_eq!(String::from_iter(letters), "--ge---b--d---");
}

#[test]
fn replay_gives_the_page_of_the_calls() {
    let mut page = [0x55; PAGE + 3];
    assert_eq!(Meter::replay(&list(), BUILT_IN, &mut page), Ok(()));
    assert_eq!(page[..PAGE], page_of(&worked().0));
    assert_eq!(page[PAGE..], [0x55; 3]);
}

#[test]
fn replay_refuses_in_order() {
    let replay = |records: &[u8], length: usize| {
        let mut page = vec![0x55; length];
        let answer = Meter::replay(records, BUILT_IN, &mut page);
        assert!(answer.is_ok() || page.iter().all(|&byte| byte == 0x55));
        answer.err().unwrap_or(0)
    };
    let list = list();
    assert_eq!(replay(&[], 0), 100);
    assert_eq!(replay(&list[..20], 0), 102);
    assert_eq!(replay(&list[21..30], 0), 102);
    assert_eq!(replay(&list[21..60], 0), 101);
    let refused = [record(0, [7, 0, 1, 1, 0]), vec![1]].concat();
    assert_eq!(replay(&refused, 0), 1);
    assert_eq!(replay(&list[..22], 0), 102);
    assert_eq!(replay(&list, PAGE - 1), 8);
    assert_eq!(replay(&list, PAGE), 0);
    assert_eq!(replay(&list[..21], PAGE), 0);
}

/// The layout, field by field, against bytes written out by hand.
#[test]
fn page_has_the_stated_layout() {
    let (mut meter, _) = worked();
    meter.openings = 0x0102_0304;
    meter.alarms = 0x1112_1314;
    meter.alarm_filter = 0x2122_2324;
    meter.alarm_count = 9;
    meter.errors = 0x3132_3334;
    meter.error_filter = 0x4142_4344;
    meter.mode = 6;
    meter.switch = READY;
    meter.run = 1;
    meter.profile = EmergencyProfile {
        id: 0x5152,
        threshold: 0x6162_6364,
        activation: 0x7172_7374,
        duration: 0x0001_0203,
        left: 0x0001_0202,
        state: ACTIVE,
    };
    meter.groups = Groups {
        count: 3,
        ids: [0x8182, 0x8384, 0x8586, 0, 0, 0, 0, 0],
    };
    let page = page_of(&meter);

    let pairs = [
        0, 36, 0, 6, 0, 42, 0, 17, 0, 59, 0, 4, 0, 63, 0, 9, 0, 72, 0, 8, 0, 80, 0, 161, 0, 241, 0,
        161, 1, 146, 0, 161, 2, 51, 0, 36,
    ];
    assert_eq!(page[..36], pairs);
    assert_eq!(page[36..42], [6, 2, 1, 2, 3, 4]);
    let limiter = [0, 0, 11, 184, 0, 0, 0, 2, 0, 0, 0, 3, 0, 0, 0, 0, 1];
    assert_eq!(page[42..59], limiter);
    assert_eq!(page[59..63], [0, 0, 3, 238]);
    let alarms = [0x11, 0x12, 0x13, 0x14, 0x21, 0x22, 0x23, 0x24, 9];
    assert_eq!(page[63..72], alarms);
    let errors = [0x31, 0x32, 0x33, 0x34, 0x41, 0x42, 0x43, 0x44];
    assert_eq!(page[72..80], errors);
    assert_eq!(page[80..402], [0; 322]);
    let lines = [
        6, 0, 0, 3, 235, 65, 0, 0, 3, 235, 64, 0, 0, 3, 235, 61, 0, 0, 3, 238, 62, 0, 0, 3, 238,
        59, 0, 0, 3, 238, 63,
    ];
    assert_eq!(page[402..433], lines);
    assert_eq!(page[433..563], [0; 130]);
    let profile = [
        0x51, 0x52, 0x61, 0x62, 0x63, 0x64, 0x71, 0x72, 0x73, 0x74, 0, 1, 2, 3, 0, 1, 2, 2, 2,
    ];
    assert_eq!(page[563..582], profile);
    assert_eq!(page[582..589], [3, 0x81, 0x82, 0x83, 0x84, 0x85, 0x86]);
    assert_eq!(page[589..], [0; 10]);
    assert_eq!(Meter::read_page(&page, BUILT_IN), Ok(meter));
}

#[test]
fn the_logs_stand_in_order_on_the_page() {
    let mut meter = example();
    meter.event(BUILT_IN, 6).unwrap();
    meter.event(BUILT_IN, 46).unwrap();
    meter.event(BUILT_IN, 68).unwrap();
    let page = page_of(&meter);
    assert_eq!(page[80..86], [1, 0, 0, 3, 232, 6]);
    assert_eq!(page[241..247], [1, 0, 0, 3, 232, 46]);
    assert_eq!(page[402..408], [1, 0, 0, 3, 232, 68]);
    assert_eq!(
        page[63..80],
        [0, 0, 0, 1, 0, 0, 0, 0, 1, 0, 0, 0, 1, 0, 0, 0, 0]
    );
}

#[test]
fn the_writer_leaves_bytes_past_the_page() {
    let meter = example();
    let mut long = [0x55; PAGE + 10];
    assert_eq!(meter.write_page(BUILT_IN, &mut long), Ok(()));
    assert_eq!(long[PAGE..], [0x55; 10]);
    let mut short = [0x55; PAGE - 1];
    assert_eq!(meter.write_page(BUILT_IN, &mut short), Err(refusal::BUFFER));
    assert_eq!(short, [0x55; PAGE - 1]);
}

#[test]
fn the_reader_refuses_in_order() {
    let good = page_of(&example());
    let read = |change: &dyn Fn(&mut [u8; PAGE])| {
        let mut page = good;
        change(&mut page);
        let answer = Meter::read_page(&page, BUILT_IN).err();
        assert_eq!(Vectorised::read_page(&page, BUILT_IN).err(), answer);
        answer.unwrap_or(0)
    };
    assert_eq!(read(&|_| ()), 0);
    assert_eq!(read(&|page| page[3] = 7), 10);
    assert_eq!(read(&|page| page[35] = 37), 10);
    assert_eq!(read(&|page| (page[3], page[36]) = (7, 9)), 10);
    assert_eq!(read(&|page| page[36] = 7), 11);
    assert_eq!(read(&|page| page[36] = 0), 0);
    assert_eq!(read(&|page| (page[36], page[37]) = (0, 2)), 11);
    assert_eq!(read(&|page| page[37] = 3), 11);
    assert_eq!(read(&|page| page[42] = 0x80), 11);
    assert_eq!(read(&|page| page[49] = 0), 11);
    assert_eq!(read(&|page| page[50] = 1), 11);
    assert_eq!(read(&|page| page[54] = 1), 0);
    assert_eq!(read(&|page| page[54] = 2), 11);
    assert_eq!(read(&|page| page[58] = 1), 0);
    assert_eq!(read(&|page| page[58] = 2), 11);
    assert_eq!(read(&|page| page[66] = 1), 11);
    assert_eq!(read(&|page| page[71] = 1), 11);
    assert_eq!(read(&|page| (page[66], page[71]) = (1, 1)), 0);
    assert_eq!(read(&|page| (page[70], page[71]) = (1, 1)), 11);
    assert_eq!(read(&|page| (page[35], page[71]) = (37, 1)), 10);
    assert_eq!(read(&|page| page[80] = 33), 11);
    assert_eq!(read(&|page| page[80] = 1), 11);
    assert_eq!(read(&|page| (page[80], page[85]) = (1, 255)), 0);
    assert_eq!(read(&|page| (page[80], page[85]) = (1, 40)), 11);
    assert_eq!(read(&|page| page[562] = 255), 11);
    assert_eq!(
        Meter::read_page(&good[..598], BUILT_IN),
        Err(refusal::LENGTH)
    );
    assert_eq!(
        Meter::read_page(&good[..558], BUILT_IN),
        Err(refusal::LENGTH)
    );
    assert_eq!(Meter::read_page(&[0; 600], BUILT_IN), Err(refusal::LENGTH));
}

/// Wherever the byte stands, and with either test of the logs.
#[test]
fn the_reader_refuses_any_byte_past_the_lines() {
    let (meter, _) = worked();
    let good = page_of(&meter);
    let past = (81..241).chain(242..402).chain(433..563);
    for place in past {
        let mut page = good;
        page[place] = 64;
        let refused = Some(refusal::UNSOUND_PAGE);
        assert_eq!(
            Meter::read_page(&page, BUILT_IN).err(),
            refused,
            "byte {place}"
        );
        assert_eq!(
            Vectorised::read_page(&page, BUILT_IN).err(),
            refused,
            "byte {place}"
        );
    }
}

#[test]
fn fresh_refuses_in_order() {
    let fresh = |mode, threshold, over, under| {
        Meter::fresh(mode, threshold, over, under, 0)
            .err()
            .unwrap_or(0)
    };
    assert_eq!(fresh(7, -1, 0, 0), 1);
    assert_eq!(fresh(256, 0, 1, 1), 1);
    assert_eq!(fresh(6, -1, 0, 0), 4);
    assert_eq!(fresh(6, 0, 0, 1), 5);
    assert_eq!(fresh(6, 0, 1, LONGEST + 1), 5);
    assert_eq!(fresh(6, i32::MAX, LONGEST, LONGEST), 0);
    let refused = Meter::fresh(7, 5, 5, 5, 5).unwrap_or_default();
    assert_eq!(refused, Meter::fresh(0, 0, 1, 1, 0).unwrap());
}

#[test]
fn numbers_are_judged_at_their_full_width() {
    let mut meter = example();
    let before = meter;
    let mut answer = |kind, number| meter.command(BUILT_IN, kind, [number, 1, 1, 0, 0]);
    assert_eq!(answer(6, 256), Err(1));
    assert_eq!(answer(15, 257), Err(3));
    assert_eq!(answer(9, 262), Err(6));
    assert_eq!(answer(14, 257), Err(7));
    assert_eq!(answer(257, 0), Err(13));
    assert_eq!(answer(0, 0), Err(13));
    assert_eq!(answer(18, 0), Err(13));
    assert_eq!(answer(7, 1 << 31), Err(4));
    assert_eq!(answer(16, 257), Err(14));
    assert_eq!(meter, before);
}

#[test]
fn an_unsound_record_is_refused_by_every_call_and_the_writer() {
    let mut meter = example();
    meter.run = 2;
    let before = meter;
    for kind in 1..=17 {
        let answer = meter.command(BUILT_IN, kind, [9, 0, 0, 0, 0]);
        assert_eq!(answer, Err(refusal::UNSOUND), "call {kind}");
    }
    assert_eq!(meter.command(BUILT_IN, 18, [0; 5]), Err(refusal::KIND));
    assert_eq!(meter.write_page(BUILT_IN, &mut []), Err(refusal::UNSOUND));
    // A list tests it once, and its calls no more.
    meter.run(BUILT_IN, &list());
    meter.run_tested(BUILT_IN, &list());
    assert_eq!(meter, before);
}

/// A list leaves what its calls leave, each of which tests the record.
#[test]
fn a_list_runs_as_its_calls_do() {
    let (mut once, mut each) = (example(), example());
    once.run(BUILT_IN, &list());
    each.run_tested(BUILT_IN, &list());
    assert_eq!(once, each);
    assert_ne!(once, example());
}

/// "the command's reading fails before the record is touched"
#[test]
fn a_call_on_a_page_judges_the_kind_first() {
    let good = page_of(&example());
    let mut other_pair = good;
    other_pair[0] ^= 1;
    let mut unsound = good;
    unsound[36] = 7;
    let pages = [
        (&good[..], 0),
        (&good[..598], refusal::LENGTH),
        (&other_pair, refusal::PAIR),
        (&unsound, refusal::UNSOUND_PAGE),
    ];
    for (page, expected) in pages {
        let call = |kind| {
            let mut after = page.to_vec();
            let answer = Meter::call_on_page(&mut after, BUILT_IN, kind, [0; 5]);
            assert!(answer.is_ok() || after == page);
            answer.err().unwrap_or(0)
        };
        assert_eq!(call(10), expected);
        assert_eq!(call(0), refusal::KIND);
        assert_eq!(call(18), refusal::KIND);
    }
}

#[test]
fn a_call_on_a_page_hands_on_the_letter() {
    let mut page = page_of(&example());
    let mut call =
        |kind, number| Meter::call_on_page(&mut page, BUILT_IN, kind, [number, 0, 0, 0, 0]);
    assert_eq!(call(15, 1), Ok(Some(Letter::B)));
    assert_eq!(call(2, 0), Ok(None));
    assert_eq!(call(3, 0), Ok(Some(Letter::D)));
    assert_eq!(call(6, 7), Err(refusal::MODE));
    assert_eq!(call(5, 0), Ok(Some(Letter::E)));
}

/// A call's refusal or 0, the switch after it, its line and its letter.
type Outcome = (u8, u8, Option<u8>, Option<char>);

/// The switch table, each mode and position.
#[test]
fn requests_follow_the_switch_table() {
    for mode in 1..=6 {
        // "There a remote reconnect now also moves 2 to 1 and logs 63" (02, A1).
        let a = matches!(mode, 2 | 4);
        let f = matches!(mode, 1 | 2 | 5);
        let stay = |position| (0, position, None, None);
        let go = |letter, position, line| (0, position, Some(line), Some(letter));
        let close = go('a', CONNECTED, 63);
        let back = if a { close } else { go('d', READY, 59) };
        let from_ready = if a { close } else { stay(READY) };
        assert_eq!(request(mode, DISCONNECTED, 2), stay(DISCONNECTED));
        assert_eq!(request(mode, CONNECTED, 2), go('b', DISCONNECTED, 62));
        assert_eq!(request(mode, READY, 2), go('c', DISCONNECTED, 62));
        assert_eq!(request(mode, DISCONNECTED, 3), back);
        assert_eq!(request(mode, CONNECTED, 3), stay(CONNECTED));
        assert_eq!(request(mode, READY, 3), from_ready);
        assert_eq!(request(mode, DISCONNECTED, 5), stay(DISCONNECTED));
        assert_eq!(request(mode, CONNECTED, 5), stay(CONNECTED));
        assert_eq!(request(mode, READY, 5), go('e', CONNECTED, 61));
        for position in [DISCONNECTED, CONNECTED, READY] {
            let expected = match (f, position) {
                (false, _) => (refusal::MODE_RULE, position, None, None),
                (true, CONNECTED) => go('f', READY, 60),
                (true, _) => stay(position),
            };
            assert_eq!(request(mode, position, 4), expected);
        }
    }
    for kind in 2..=5 {
        assert_eq!(request(0, CONNECTED, kind), (2, CONNECTED, None, None));
    }
}

/// "Script: 1 is call 2, 2 is call 3."
#[test]
fn scripts_are_the_calls_they_name() {
    for mode in 0..=6 {
        for position in [DISCONNECTED, CONNECTED, READY] {
            if mode == 0 && position != CONNECTED {
                continue;
            }
            let script = |number| call(mode, position, 15, number);
            assert_eq!(script(1), request(mode, position, 2));
            assert_eq!(script(2), request(mode, position, 3));
        }
    }
}

/// "Accepting mode 0 sets switch 1 and, if it was not 1, logs 63."; "accepting
/// mode 0 answers none" (02, A2)
#[test]
fn mode_0_closes_without_a_letter() {
    for mode in 1..=6 {
        for position in [DISCONNECTED, CONNECTED, READY] {
            let line = (position != CONNECTED).then_some(63);
            assert_eq!(call(mode, position, 6, 0), (0, CONNECTED, line, None));
            let other = mode % 6 + 1;
            let stays = (0, position, None, None);
            assert_eq!(call(mode, position, 6, other.into()), stays);
            let refused = (refusal::MODE, position, None, None);
            assert_eq!(call(mode, position, 6, 7), refused);
        }
    }
}

/// "then g is tried", "then h is tried"; their letters come with the sample.
#[test]
fn samples_hand_on_g_and_h() {
    for mode in 0..=6 {
        let mut meter = Meter::fresh(mode, 10, 2, 2, 0).unwrap();
        let letters = [11, 11, 11, 10, 10, 10].map(|power| meter.sample(BUILT_IN, power).unwrap());
        let g = (mode != 0).then_some(Letter::G);
        let h = (mode >= 5).then_some(Letter::H);
        assert_eq!(letters, [None, g, None, None, h, None], "mode {mode}");
    }
}

fn request(mode: u8, switch: u8, kind: u32) -> Outcome {
    call(mode, switch, kind, 0)
}

fn call(mode: u8, switch: u8, kind: u32, number: u32) -> Outcome {
    let mut meter = example();
    meter.mode = mode;
    meter.switch = switch;
    let answer = meter.command(BUILT_IN, kind, [number, 0, 0, 0, 0]);
    let opened = switch == CONNECTED && meter.switch != CONNECTED;
    assert_eq!(meter.openings, opened.into());
    let line = meter.logs[DISCONNECT].lines().last().map(|line| line.1);
    let letter = answer.ok().flatten().map(Letter::as_char);
    (answer.err().unwrap_or(0), meter.switch, line, letter)
}

#[test]
fn the_ends_hold() {
    let mut meter = Meter::fresh(1, 0, 2, 2, u32::MAX - 1).unwrap();
    meter.openings = u32::MAX;
    meter.sample(BUILT_IN, i32::MIN).unwrap();
    meter.sample(BUILT_IN, i32::MIN).unwrap();
    assert_eq!((meter.clock, meter.run), (u32::MAX, 0));
    meter.remote_disconnect(BUILT_IN).unwrap();
    assert_eq!((meter.switch, meter.openings), (DISCONNECTED, u32::MAX));
}

#[test]
fn setting_the_clock_writes_both_clocks() {
    let mut meter = example();
    meter.event(BUILT_IN, 6).unwrap();
    meter.set_clock(BUILT_IN, 7).unwrap();
    let lines: Vec<_> = meter.logs[STANDARD].lines().collect();
    assert_eq!(lines, [(1000, 6), (1000, 4), (7, 5)]);
    assert_eq!((meter.alarms, meter.errors), (1, 0));
}

#[test]
fn filters_hide_at_the_event_only() {
    let mut meter = example();
    meter.set_alarm_filter(BUILT_IN, 1 << 13 | 1).unwrap();
    meter.event(BUILT_IN, 40).unwrap();
    meter.event(BUILT_IN, 6).unwrap();
    assert_eq!((meter.alarms, meter.errors), (0, 1));
    meter.set_alarm_filter(BUILT_IN, 0).unwrap();
    meter.set_error_filter(BUILT_IN, u32::MAX).unwrap();
    assert_eq!((meter.alarms, meter.errors), (0, 1));
}

#[test]
fn clears_write_their_lines() {
    let mut meter = example();
    meter.clear_alarms(BUILT_IN, 0).unwrap();
    meter.clear_errors(BUILT_IN, 0).unwrap();
    let lines: Vec<_> = meter.logs[STANDARD].lines().collect();
    assert_eq!(lines, [(1000, 11), (1000, 10)]);
    meter.clear_log(BUILT_IN, 1).unwrap();
    let lines: Vec<_> = meter.logs[STANDARD].lines().collect();
    assert_eq!(lines, [(1000, 255)]);
}

/// The alarm register and how many of its bits stand, after the calls.
fn alarms_after(calls: &[(u32, u32)]) -> (u32, u8) {
    let mut meter = example();
    for &(kind, number) in calls {
        let _ = meter.command(BUILT_IN, kind, [number, 0, 0, 0, 0]);
        assert!(meter.sound(BUILT_IN));
        assert_eq!(page_of(&meter)[71], meter.alarm_count);
    }
    (meter.alarms, meter.alarm_count)
}

/// "Keep that number in the record, true after each call" (02, A6)
#[test]
fn alarms_are_counted_while_they_stand() {
    assert_eq!(alarms_after(&[(9, 6), (9, 44)]), (0x2001, 2));
    // Raised again, by the same code or another.
    assert_eq!(alarms_after(&[(9, 6), (9, 6)]), (1, 1));
    assert_eq!(alarms_after(&[(9, 40), (9, 42), (9, 44)]), (0x2000, 1));
    // Hidden, and refused.
    assert_eq!(alarms_after(&[(10, 1), (9, 6), (9, 7)]), (2, 1));
    assert_eq!(alarms_after(&[(9, 1), (9, 41), (9, 9)]), (0, 0));
    // The filter plays no part in what stands, nor do the errors.
    assert_eq!(alarms_after(&[(9, 6), (10, u32::MAX)]), (1, 1));
    assert_eq!(alarms_after(&[(10, u32::MAX), (9, 6), (10, 0)]), (0, 0));
    assert_eq!(alarms_after(&[(9, 6), (8, 7), (13, u32::MAX)]), (1, 1));
    assert_eq!(alarms_after(&[(11, u32::MAX), (9, 6)]), (1, 1));
    let every = [6, 7, 12, 13, 14, 15, 16, 40].map(|code| (9, code));
    assert_eq!(alarms_after(&every), (0x3f03, 8));
}

#[test]
fn cleared_alarms_are_no_longer_counted() {
    let after = |masks: &[u32]| {
        let raised = [6, 7, 12].map(|code| (9, code));
        let cleared: Vec<_> = masks.iter().map(|&mask| (12, mask)).collect();
        alarms_after(&[&raised[..], &cleared].concat())
    };
    assert_eq!(after(&[0]), (0x103, 3));
    assert_eq!(after(&[2]), (0x101, 2));
    assert_eq!(after(&[2, 2]), (0x101, 2));
    assert_eq!(after(&[!0x103]), (0x103, 3));
    assert_eq!(after(&[0x8000_0101]), (2, 1));
    assert_eq!(after(&[u32::MAX, u32::MAX]), (0, 0));
}

/// "A record or page with another number isn't sound." (02, A6)
#[test]
fn another_number_of_alarms_is_unsound() {
    let registers = (0..=32).map(|bits| ((1_u64 << bits) - 1) as u32);
    let spread = [1 << 31, 0x8000_0001, 0x5555_5555, 0xfffe_ffff];
    for alarms in registers.chain(spread) {
        for count in 0..=255 {
            let mut meter = example();
            meter.alarm_filter = !alarms;
            meter.alarms = alarms;
            meter.alarm_count = count;
            let sound = u32::from(count) == alarms.count_ones();
            assert_eq!(meter.sound(BUILT_IN), sound, "{count} of {alarms:#x}");
            let mut page = [0; PAGE];
            let unsound = (!sound).then_some(refusal::UNSOUND);
            assert_eq!(meter.write_page(BUILT_IN, &mut page).err(), unsound);
            assert_eq!(meter.command(BUILT_IN, 12, [0; 5]).err(), unsound);
        }
    }
}

/// Every byte of the alarms area, with each value.
#[test]
fn the_reader_judges_the_alarms_area() {
    let mut meter = example();
    for code in [6, 13, 40] {
        meter.event(BUILT_IN, code).unwrap();
    }
    meter.set_alarm_filter(BUILT_IN, 0x1234_5678).unwrap();
    let good = page_of(&meter);
    assert_eq!(good[63..72], [0, 0, 0x22, 1, 0x12, 0x34, 0x56, 0x78, 3]);
    for (place, value) in (63..72).flat_map(|place| (0..=255).map(move |value| (place, value))) {
        let mut page = good;
        page[place] = value;
        let read = Meter::read_page(&page, BUILT_IN);
        assert_eq!(Vectorised::read_page(&page, BUILT_IN).err(), read.err());
        let bits: u32 = page[63..67].iter().map(|byte| byte.count_ones()).sum();
        let counted = bits == u32::from(page[71]);
        let refused = (!counted).then_some(refusal::UNSOUND_PAGE);
        assert_eq!(read.err(), refused, "byte {place}, {value}");
        if let Ok(meter) = read {
            assert_eq!(page_of(&meter), page);
        }
    }
}

#[test]
fn a_limiter_setting_keeps_exceeded() {
    let mut meter = Meter::fresh(0, 10, 1, 2, 0).unwrap();
    meter.sample(BUILT_IN, 11).unwrap();
    meter.sample(BUILT_IN, 0).unwrap();
    assert_eq!((meter.exceeded, meter.run, meter.openings), (true, 1, 0));
    meter.set_limiter(BUILT_IN, 20, 1, 1).unwrap();
    assert_eq!((meter.exceeded, meter.run), (true, 0));
    let codes: Vec<_> = meter.logs[DISCONNECT].lines().map(|line| line.1).collect();
    assert_eq!(codes, [65, 67]);
}

/// Exceeded, and Run one before its end.
fn nearly_under(mode: u32) -> Meter {
    let mut meter = Meter::fresh(mode, 10, 2, 3, 0).unwrap();
    for power in [11, 11, 10, 10] {
        meter.sample(BUILT_IN, power).unwrap();
    }
    assert_eq!((meter.exceeded, meter.run), (true, 2));
    meter
}

fn codes(meter: &Meter) -> Vec<u8> {
    let lines = meter.logs[DISCONNECT].lines();
    lines.map(|line| line.1).collect()
}

/// "a manual reconnect that moves the switch also ends Exceeded and sets Run 0,
/// without a line" (02, A5)
#[test]
fn the_key_arms_the_limiter() {
    for mode in 1..=6 {
        let mut meter = nearly_under(mode);
        let before = meter;
        assert_eq!(meter.manual_reconnect(BUILT_IN), Ok(Some(Letter::E)));
        assert_eq!(codes(&meter), [65, 64, 61]);
        let expected = Meter {
            switch: CONNECTED,
            exceeded: false,
            run: 0,
            logs: meter.logs,
            ..before
        };
        assert_eq!(meter, expected);
        // The kettle is still on: cut again, after Over samples.
        assert_eq!(meter.sample(BUILT_IN, 11), Ok(None));
        assert_eq!(meter.sample(BUILT_IN, 11), Ok(Some(Letter::G)));
        assert_eq!(codes(&meter), [65, 64, 61, 65, 64]);
        assert_eq!((meter.switch, meter.openings), (READY, 2));
    }
}

#[test]
fn the_key_sets_run_0_where_not_exceeded() {
    let mut meter = Meter::fresh(1, 10, 2, 3, 0).unwrap();
    meter.sample(BUILT_IN, 11).unwrap();
    meter.manual_disconnect(BUILT_IN).unwrap();
    assert_eq!(meter.run, 1);
    meter.manual_reconnect(BUILT_IN).unwrap();
    assert_eq!((meter.exceeded, meter.run), (false, 0));
    assert_eq!(meter.sample(BUILT_IN, 11), Ok(None));
    assert_eq!(codes(&meter), [60, 61]);
}

/// A manual reconnect that moves nothing, a remote reconnect, mode 0, and the
/// key that opens.
#[test]
fn nothing_else_arms_the_limiter() {
    let armed = |mode, switch, calls: &[(u32, u32)]| {
        let mut meter = nearly_under(mode);
        meter.switch = switch;
        for &(kind, number) in calls {
            meter.command(BUILT_IN, kind, [number, 0, 0, 0, 0]).unwrap();
        }
        (meter.exceeded, meter.run) != (true, 2)
    };
    for mode in 1..=6 {
        assert!(armed(mode, READY, &[(5, 0)]));
        assert!(!armed(mode, CONNECTED, &[(5, 0)]));
        assert!(!armed(mode, DISCONNECTED, &[(5, 0)]));
        for switch in [DISCONNECTED, CONNECTED, READY] {
            assert!(!armed(mode, switch, &[(2, 0)]));
            assert!(!armed(mode, switch, &[(3, 0)]));
            assert!(!armed(mode, switch, &[(15, 2)]));
            assert!(!armed(mode, switch, &[(6, 0)]));
        }
    }
    assert!(!armed(5, CONNECTED, &[(4, 0)]));
}

/// A meter with the group 7, threshold 10, Over and Under 2, clock 100.
fn grouped() -> Meter {
    let mut meter = Meter::fresh(5, 10, 2, 2, 100).unwrap();
    meter
        .set_emergency_groups(BUILT_IN, 1, [7 << 16, 0, 0, 0])
        .unwrap();
    meter
}

/// The same with a profile of this threshold, activation and duration.
fn waiting(threshold: i32, activation: u32, duration: u32) -> Meter {
    let mut meter = grouped();
    let set = meter.set_emergency_profile(BUILT_IN, 7, threshold, activation, duration);
    assert_eq!(set, Ok(None));
    assert_eq!(
        (meter.profile.state, meter.profile.left),
        (WAITING, duration)
    );
    meter
}

fn run_samples(meter: &mut Meter, powers: &[i32]) {
    for &power in powers {
        meter.sample(BUILT_IN, power).unwrap();
    }
}

/// "It goes active with the first sample whose advanced clock has reached
/// activation, and governs that many samples, that one included" (02, A3)
#[test]
fn a_profile_starts_at_activation_and_ends_by_its_samples() {
    let states = |activation, powers: &[i32]| {
        let mut meter = waiting(5, activation, 2);
        let state = |&power: &i32| {
            meter.sample(BUILT_IN, power).unwrap();
            (meter.profile.state, meter.profile.left)
        };
        powers.iter().map(state).collect::<Vec<_>>()
    };
    let whole = [(ACTIVE, 1), (0, 0), (0, 0)];
    assert_eq!(states(0, &[0, 0, 0]), whole);
    assert_eq!(states(101, &[0, 0, 0]), whole);
    let later = [(WAITING, 2), (ACTIVE, 1), (0, 0)];
    assert_eq!(states(102, &[0, 0, 0]), later);
    let mut meter = waiting(5, 0, 1);
    meter.sample(BUILT_IN, 0).unwrap();
    assert_eq!(meter.profile, EmergencyProfile::NONE);
    assert_eq!(codes(&meter), [67, 67]);
}

/// "at the start before the sample is judged, at the end after the last governed
/// one" (02, A3)
#[test]
fn governed_samples_are_judged_by_the_profile() {
    let mut meter = waiting(5, 0, 2);
    run_samples(&mut meter, &[6, 6]);
    assert_eq!(codes(&meter), [67, 65, 64, 67]);
    assert!(meter.exceeded);
    // The normal threshold again.
    run_samples(&mut meter, &[10, 10]);
    assert_eq!(codes(&meter), [67, 65, 64, 67, 66, 69]);
}

/// "Whenever the threshold in force becomes another number, Run is 0 and 67 is
/// logged" (02, A3)
#[test]
fn a_threshold_change_begins_anew() {
    let mut meter = waiting(5, 102, 3);
    run_samples(&mut meter, &[11]);
    assert_eq!(meter.run, 1);
    run_samples(&mut meter, &[11]);
    assert_eq!((meter.run, meter.exceeded), (1, false));
    assert_eq!(codes(&meter), [67]);
    // The same number changes nothing, and a row runs on.
    let mut meter = waiting(10, 102, 1);
    run_samples(&mut meter, &[11, 11]);
    assert_eq!(codes(&meter), [65, 64]);
    // Exceeded stays.
    let mut meter = waiting(20, 103, 9);
    run_samples(&mut meter, &[11, 11, 15]);
    assert_eq!((meter.run, meter.exceeded), (1, true));
    assert_eq!(codes(&meter), [65, 64, 67]);
}

/// "or at a kind 17 that replaces an active profile" (02, A3)
#[test]
fn a_profile_in_place_of_another_waits() {
    let mut meter = waiting(5, 0, 9);
    assert_eq!(meter.set_emergency_profile(BUILT_IN, 7, 4, 0, 9), Ok(None));
    assert_eq!(codes(&meter), []);
    run_samples(&mut meter, &[11]);
    assert_eq!(meter.set_emergency_profile(BUILT_IN, 7, 3, 0, 8), Ok(None));
    let profile = meter.profile;
    let found = (profile.state, profile.threshold, profile.left, meter.run);
    assert_eq!(found, (WAITING, 3, 8, 0));
    assert_eq!(codes(&meter), [67, 67]);
    let mut meter = waiting(10, 0, 9);
    run_samples(&mut meter, &[11]);
    assert_eq!(meter.set_emergency_profile(BUILT_IN, 7, 3, 0, 8), Ok(None));
    assert_eq!((codes(&meter), meter.run), (vec![], 1));
}

/// "setting the clock back or new groups don't end it"; "Call 7 sets the normal
/// threshold and keeps its own Run 0 and single 67" (02, A3)
#[test]
fn other_calls_leave_a_profile() {
    let mut meter = waiting(5, 0, 3);
    run_samples(&mut meter, &[6]);
    let profile = meter.profile;
    meter.set_clock(BUILT_IN, 0).unwrap();
    meter.set_emergency_groups(BUILT_IN, 0, [0; 4]).unwrap();
    assert_eq!((meter.profile, meter.run), (profile, 1));
    meter.set_limiter(BUILT_IN, 5, 2, 2).unwrap();
    assert_eq!((meter.profile, meter.run), (profile, 0));
    assert_eq!(codes(&meter), [67, 67]);
    // The end finds the same number, and the row runs on.
    run_samples(&mut meter, &[0, 6]);
    assert_eq!(meter.profile, EmergencyProfile::NONE);
    assert_eq!((codes(&meter), meter.run), (vec![67, 67], 1));
    // Call 8 starts nothing, and set back it delays.
    let mut meter = waiting(5, 200, 3);
    meter.set_clock(BUILT_IN, 300).unwrap();
    assert_eq!(meter.profile.state, WAITING);
    meter.set_clock(BUILT_IN, 100).unwrap();
    run_samples(&mut meter, &[0]);
    assert_eq!(meter.profile.state, WAITING);
}

/// "14, more than eight ids (kind 16); 15, id not in the group (kind 17); 16,
/// duration outside 1 to 604,800, or threshold negative, after 15" (02, A3)
#[test]
fn groups_and_profiles_are_refused_in_order() {
    let mut meter = grouped();
    let before = meter;
    let ids = [u32::MAX; 4];
    for count in [9, 256, 264, u32::MAX] {
        let answer = meter.set_emergency_groups(BUILT_IN, count, ids);
        assert_eq!(answer, Err(refusal::GROUPS), "{count} ids");
    }
    let set = |id, threshold, duration| {
        let mut after = meter;
        let answer = after.set_emergency_profile(BUILT_IN, id, threshold, 0, duration);
        assert!(answer.is_ok() || after == meter);
        answer.err().unwrap_or(0)
    };
    assert_eq!(set(7, 0, 1), 0);
    assert_eq!(set(7, i32::MAX, LONGEST_EMERGENCY), 0);
    assert_eq!(set(7, -1, 1), 16);
    assert_eq!(set(7, 0, 0), 16);
    assert_eq!(set(7, 0, LONGEST_EMERGENCY + 1), 16);
    assert_eq!(set(0x1_0007, 0, 1), 15);
    assert_eq!(set(8, -1, 0), 15);
    assert_eq!(set(0, 0, 1), 15);
    assert_eq!(meter, before);
    meter.set_emergency_groups(BUILT_IN, 8, ids).unwrap();
    assert_eq!(meter.groups.ids, [0xffff; 8]);
    meter.set_emergency_groups(BUILT_IN, 3, ids).unwrap();
    assert_eq!(meter.groups.ids, [0xffff, 0xffff, 0xffff, 0, 0, 0, 0, 0]);
}

/// Every byte of the ninth area, with each value: the reader takes it where the
/// record would be sound, and writes it back.
#[test]
fn the_reader_judges_the_ninth_area() {
    let mut active = waiting(5, 0, 300);
    run_samples(&mut active, &[0; 5]);
    for meter in [grouped(), waiting(5, 200, 300), active] {
        let good = page_of(&meter);
        for (place, value) in
            (563..PAGE).flat_map(|place| (0..=255).map(move |value| (place, value)))
        {
            let mut page = good;
            page[place] = value;
            let read = Meter::read_page(&page, BUILT_IN);
            assert_eq!(Vectorised::read_page(&page, BUILT_IN).err(), read.err());
            let Ok(meter) = read else {
                assert_eq!(read, Err(refusal::UNSOUND_PAGE));
                continue;
            };
            assert_eq!(page_of(&meter), page, "byte {place}");
        }
    }
}

/// Lines of code, log, alarm bit, error bit: the first and the last code that a
/// table may have, 6 with bits of its own, and standard 40.
const HARBOUR: [[u8; 4]; 6] = [
    [0, 2, 31, 255],
    [6, 1, 5, 7],
    [40, 1, 255, 0],
    [70, 3, 0, 31],
    [200, 2, 255, 255],
    [254, 3, 13, 13],
];

fn own(lines: &[[u8; 4]]) -> Table {
    let table = Table::load(lines.as_flattened()).unwrap();
    assert!(matches!(table, Table::Own(_)));
    table
}

fn table_refusal(lines: &[[u8; 4]]) -> u8 {
    Table::load(lines.as_flattened()).err().unwrap_or(0)
}

/// "17, length not a multiple of 4, or not 1 to 64 lines" (02, A8)
#[test]
fn a_table_has_1_to_64_whole_lines() {
    let codes = (0..=255).filter(|code| !matches!(code, 4 | 5 | 10 | 11 | 59..=67 | 69 | 255));
    let bytes: Vec<u8> = codes.flat_map(|code| [code, 3, 31, 255]).collect();
    for length in 0..=300 {
        let good = length % 4 == 0 && (1..=TABLE_LINES).contains(&(length / 4));
        let refused = (!good).then_some(refusal::TABLE_LENGTH);
        let loaded = Table::load(&bytes[..length]);
        assert_eq!(loaded.err(), refused, "{length} bytes");
        // "On loading 17 comes first".
        let loaded = Table::load(&vec![4; length]);
        let refused = refused.unwrap_or(refusal::TABLE_CODE);
        assert_eq!(loaded.err(), Some(refused), "{length} bytes");
    }
}

/// "18, code barred or not above the line before; 19, log not 1–3 or a bit of 32 to
/// 254"; "then the first faulty line decides, 18 before 19 within it" (02, A8)
#[test]
fn the_first_faulty_line_of_a_table_decides() {
    let good = [7, 1, 255, 255];
    let barred = [10, 1, 255, 255];
    let no_log = [9, 4, 255, 255];
    let no_bit = [9, 1, 255, 32];
    assert_eq!(table_refusal(&[good]), 0);
    assert_eq!(table_refusal(&[good, barred]), 18);
    assert_eq!(table_refusal(&[good, no_log]), 19);
    assert_eq!(table_refusal(&[good, no_bit]), 19);
    // Not above the line before.
    assert_eq!(table_refusal(&[good, good]), 18);
    assert_eq!(table_refusal(&[good, [6, 1, 255, 255]]), 18);
    // In one line, and in two.
    assert_eq!(table_refusal(&[good, [10, 0, 32, 254]]), 18);
    assert_eq!(table_refusal(&[good, [7, 4, 255, 255]]), 18);
    assert_eq!(table_refusal(&[no_log, barred]), 19);
    assert_eq!(table_refusal(&[no_bit, [9, 1, 255, 255]]), 19);
    assert_eq!(
        table_refusal(&[[9, 1, 0, 0], [8, 1, 0, 0], [9, 4, 0, 0]]),
        18
    );
    // Two neighbours, and every sort of line.
    assert_eq!(
        table_refusal(&[[0, 1, 0, 0], [1, 2, 31, 0], [2, 3, 0, 31]]),
        0
    );
    assert_eq!(table_refusal(&HARBOUR), 0);
}

/// "a list's account reads call 9 by the table it began with" (02, A8)
#[test]
fn events_are_those_of_the_own_table() {
    let table = own(&HARBOUR);
    let event = |code: u32| {
        let mut meter = example();
        let before = meter;
        let answer = meter.event(&table, code);
        if answer.is_err() {
            assert_eq!((answer, meter), (Err(refusal::CODE), before), "{code}");
            return None;
        }
        assert!(meter.sound(&table));
        let counts = meter.logs.map(|log| log.count);
        let log = counts.iter().position(|&count| count == 1).unwrap();
        assert_eq!(counts.iter().sum::<u8>(), 1);
        let line = meter.logs[log].lines().next();
        assert_eq!(line, Some((1000, code as u8)));
        assert_eq!(u32::from(meter.alarm_count), meter.alarms.count_ones());
        Some((log, meter.alarms, meter.errors))
    };
    assert_eq!(event(0), Some((FRAUD, 1 << 31, 0)));
    assert_eq!(event(6), Some((STANDARD, 1 << 5, 1 << 7)));
    assert_eq!(event(40), Some((STANDARD, 0, 1)));
    assert_eq!(event(70), Some((DISCONNECT, 1, 1 << 31)));
    assert_eq!(event(200), Some((FRAUD, 0, 0)));
    assert_eq!(event(254), Some((DISCONNECT, 1 << 13, 1 << 13)));
    let taken = (0..1024).filter(|&code| event(code).is_some());
    assert_eq!(taken.collect::<Vec<_>>(), [0, 6, 40, 70, 200, 254]);
}

/// "soundness of log codes is against that table" (02, A8): each code in each log.
#[test]
fn log_codes_are_judged_by_the_table() {
    let listed = |log: usize, code: u8| {
        let line = HARBOUR.iter().find(|line| line[0] == code);
        line.is_some_and(|line| usize::from(line[1]) == log + 1)
    };
    let besides = |log, code| match log {
        STANDARD => matches!(code, 4 | 5 | 10 | 11 | 255),
        FRAUD => code == 255,
        _ => matches!(code, 59..=67 | 69 | 255),
    };
    let table = own(&HARBOUR);
    for (log, code) in (0..3).flat_map(|log| (0..=255).map(move |code| (log, code))) {
        let mut meter = example();
        meter.clear_log(&table, log as u32 + 1).unwrap();
        meter.logs[log].codes[0] = code;
        let sound = listed(log, code) || besides(log, code);
        assert_eq!(meter.sound(&table), sound, "code {code} in log {log}");
        let unsound = (!sound).then_some(refusal::UNSOUND);
        let mut page = [0; PAGE];
        assert_eq!(meter.write_page(&table, &mut page).err(), unsound);
        assert_eq!(meter.command(&table, 10, [0; 5]).err(), unsound);
        // Written by a table that lists every code but the barred ones there.
        if !sound && !matches!(code, 4 | 5 | 10 | 11 | 59..=67 | 69 | 255) {
            let other = own(&[[code, log as u8 + 1, 255, 255]]);
            meter.write_page(&other, &mut page).unwrap();
            let refused = Some(refusal::UNSOUND_PAGE);
            assert_eq!(Meter::read_page(&page, &table).err(), refused);
            assert_eq!(Vectorised::read_page(&page, &table).err(), refused);
            let answer = Meter::call_on_page(&mut page, &table, 10, [0; 5]);
            assert_eq!(answer.err(), refused);
        } else if sound {
            assert_eq!(Meter::read_page(&page, &table), Ok(meter));
            assert!(Vectorised::read_page(&page, &table).is_ok());
        }
    }
}

/// "68 only if listed": document 01 has it as an event.
#[test]
fn code_68_is_good_where_it_is_listed() {
    let mut meter = example();
    meter.event(BUILT_IN, 68).unwrap();
    let page = page_of(&meter);
    assert!(Meter::read_page(&page, BUILT_IN).is_ok());
    assert!(Meter::read_page(&page, &own(&[[68, 3, 0, 0]])).is_ok());
    let refused = Err(refusal::UNSOUND_PAGE);
    assert_eq!(Meter::read_page(&page, &own(&[[68, 1, 0, 0]])), refused);
    assert_eq!(Meter::read_page(&page, &own(&HARBOUR)), refused);
}

/// What a call writes by itself stays good under any table.
#[test]
fn every_call_keeps_its_record_sound_under_an_own_table() {
    let table = own(&HARBOUR);
    let mut meter = Meter::fresh(5, 3000, 1, 1, 1000).unwrap();
    let calls = [
        (1, 3001),
        (1, 0),
        (1, 3001),
        (5, 0),
        (4, 0),
        (2, 0),
        (3, 0),
        (15, 1),
        (15, 2),
    ];
    let settings = [
        (8, 7),
        (10, 0),
        (11, 0),
        (12, 0),
        (13, 0),
        (9, 0),
        (9, 254),
        (6, 0),
    ];
    for (kind, number) in [&calls[..], &settings, &[(14, 1), (14, 2), (14, 3)]].concat() {
        let answer = meter.command(&table, kind, [number, 0, 0, 0, 0]);
        assert!(answer.is_ok(), "call {kind}");
        assert!(meter.sound(&table), "call {kind}");
        assert!(Meter::read_page(&page_by(&meter, &table), &table) == Ok(meter));
    }
    meter.set_limiter(&table, 1, 1, 1).unwrap();
    assert!(meter.sound(&table));
}

fn page_by(meter: &Meter, table: &Table) -> [u8; PAGE] {
    let mut page = [0xaa; PAGE];
    meter.write_page(table, &mut page).unwrap();
    page
}

/// Call 8: "error bit 0 is cleared", by its place, whatever event raises it.
#[test]
fn the_clock_clears_error_bit_0_under_any_table() {
    let table = own(&HARBOUR);
    let mut meter = example();
    for code in [6, 40, 70] {
        meter.event(&table, code).unwrap();
    }
    assert_eq!(
        (meter.alarms, meter.errors),
        (1 << 5 | 1, 1 << 7 | 1 | 1 << 31)
    );
    meter.set_clock(&table, 7).unwrap();
    assert_eq!((meter.alarms, meter.errors), (1 << 5 | 1, 1 << 7 | 1 << 31));
}

/// "Without a good table the built-in one serves." (02, A8)
#[test]
fn without_a_good_table_the_built_in_one_serves() {
    for bytes in [&[][..], &[6], &[4, 1, 0, 0], &[6, 4, 0, 0], &[6, 1, 32, 0]] {
        let table = Table::load(bytes).unwrap_or_default();
        assert_eq!(table, Table::BuiltIn);
        let mut meter = example();
        meter.event(&table, 6).unwrap();
        assert_eq!((meter.alarms, meter.errors), (1, 1));
    }
}

/// "Lists of calls now begin with a fresh meter and a table, the same for every call
/// of the list and its writer" (02, A8)
#[test]
fn a_list_is_replayed_under_its_table() {
    let table = own(&HARBOUR);
    let mut list = record(0, [5, 3000, 2, 3, 1000]);
    let mut meter = example();
    for code in [0, 6, 1, 254, 68, 40] {
        list.extend(record(9, [code, 7, 7, 7, 7]));
        let _ = meter.event(&table, code);
    }
    let mut page = [0x55; PAGE];
    assert_eq!(Meter::replay(&list, &table, &mut page), Ok(()));
    assert_eq!(page, page_by(&meter, &table));
    let counts = meter.logs.map(|log| log.count);
    assert_eq!(counts, [2, 1, 1]);
    let mut other = [0x55; PAGE];
    assert_eq!(Meter::replay(&list, BUILT_IN, &mut other), Ok(()));
    assert_eq!([other[80], other[241], other[402]], [2, 1, 1]);
    assert_ne!(page, other);
}
