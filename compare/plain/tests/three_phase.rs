//! Request A13's meter, its values worked out by hand from the documents.

use plain::three_phase::{LINES, Line, Meter, NUMBERS, PAGE, PAIRS, RECORD, SUM};
use plain::{CONNECTED, DISCONNECT, DISCONNECTED, Letter, READY, STANDARD, Table, refusal};

const BUILT_IN: &Table = &Table::BuiltIn;

/// Thresholds at which each phase and the sum can be over or not by themselves.
const THRESHOLDS: [i32; LINES] = [100, 200, 300, 500];

fn meter(mode: u32, over: u32, under: u32) -> Meter {
    Meter::fresh(mode, THRESHOLDS, over, under, 1000).unwrap()
}

fn sample(meter: &mut Meter, powers: [i32; 3]) -> Option<Letter> {
    let [l1, l2, l3] = powers.map(|power| power as u32);
    // What a sample doesn't use is ignored.
    let answer = meter.command(BUILT_IN, 1, [l1, l2, l3, 77, 78, 79]);
    answer.expect("a sample of a sound meter is accepted")
}

fn call(meter: &mut Meter, kind: u32, number: u32) -> plain::Answer {
    meter.command(BUILT_IN, kind, [number, 77, 78, 79, 80, 81])
}

fn set_limiter(meter: &mut Meter, thresholds: [i32; LINES], over: u32, under: u32) -> u8 {
    let [l1, l2, l3, sum] = thresholds.map(|threshold| threshold as u32);
    let answer = meter.command(BUILT_IN, 7, [l1, l2, l3, sum, over, under]);
    assert!(!matches!(answer, Ok(Some(_))), "call 7 moves nothing");
    answer.err().unwrap_or(0)
}

/// The lines of log 3.
fn log_3(meter: &Meter) -> Vec<(u32, u8)> {
    meter.common().logs[DISCONNECT].lines().collect()
}

fn codes(meter: &Meter) -> Vec<u8> {
    log_3(meter).into_iter().map(|line| line.1).collect()
}

fn exceeded(meter: &Meter) -> [bool; LINES] {
    meter.lines.map(|line| line.exceeded)
}

fn runs(meter: &Meter) -> [u32; LINES] {
    meter.lines.map(|line| line.run)
}

fn page_of(meter: &Meter) -> [u8; PAGE] {
    let mut page = [0xaa; PAGE];
    meter.write_page(BUILT_IN, &mut page).unwrap();
    page
}

fn number(page: &[u8], offset: usize) -> u32 {
    u32::from_be_bytes(*page[offset..].first_chunk().unwrap())
}

#[test]
fn three_lines_fire_over_in_one_sample() {
    let mut meter = meter(5, 2, 2);
    // L1 and L2 over, L3 not; the sum 101 + 201 + 199 = 501 over.
    assert_eq!(sample(&mut meter, [101, 201, 199]), None);
    assert_eq!(runs(&meter), [1, 1, 0, 1]);
    assert_eq!(sample(&mut meter, [101, 201, 199]), Some(Letter::G));
    let lines = [65, 65, 65, 64].map(|code| (1002, code));
    assert_eq!(log_3(&meter), lines);
    assert_eq!(exceeded(&meter), [true, true, false, true]);
    assert_eq!(runs(&meter), [0; LINES]);
    assert_eq!(meter.common().switch, READY);
    assert_eq!(meter.common().openings, 1);
}

#[test]
fn all_four_lines_fire_over_in_one_sample() {
    let mut meter = meter(1, 1, 1);
    assert_eq!(sample(&mut meter, [101, 201, 301]), Some(Letter::G));
    assert_eq!(codes(&meter), [65, 65, 65, 65, 64]);
    // The switch is at 2, so in mode 1, without h, four 66 alone.
    assert_eq!(sample(&mut meter, [0, 0, 0]), None);
    assert_eq!(codes(&meter)[5..], [66, 66, 66, 66]);
    assert_eq!(meter.common().switch, READY);
}

/// "h once if a line fired under and none remains exceeded"
#[test]
fn a_line_that_remains_exceeded_holds_h_back() {
    let mut meter = meter(6, 1, 2);
    // L1, L2 and L3 over; the sum 603 over too.
    assert_eq!(sample(&mut meter, [101, 201, 301]), Some(Letter::G));
    assert_eq!(exceeded(&meter), [true; LINES]);
    // L3 stays over; L1, L2 and the sum, 301, don't.
    assert_eq!(sample(&mut meter, [0, 0, 301]), None);
    assert_eq!(runs(&meter), [1, 1, 0, 1]);
    // L1 over again, so two lines fire under, L2 and the sum.
    assert_eq!(sample(&mut meter, [101, 0, 301]), None);
    assert_eq!(exceeded(&meter), [true, false, true, false]);
    assert_eq!(codes(&meter), [65, 65, 65, 65, 64, 66, 66]);
    assert_eq!(meter.common().switch, READY);
    // L1 is under for two samples, then L3: only then is h tried.
    assert_eq!(sample(&mut meter, [0, 0, 301]), None);
    assert_eq!(sample(&mut meter, [0, 0, 300]), None);
    assert_eq!(exceeded(&meter), [false, false, true, false]);
    assert_eq!(codes(&meter)[7..], [66]);
    assert_eq!(sample(&mut meter, [0, 0, 300]), Some(Letter::H));
    assert_eq!(codes(&meter)[8..], [66, 69]);
    assert_eq!(log_3(&meter)[8..], [(1006, 66), (1006, 69)]);
    assert_eq!(meter.common().switch, CONNECTED);
    assert_eq!(meter.common().openings, 1);
}

/// g is tried, h is not, and the lines stand in line order.
#[test]
fn one_line_fires_over_while_another_fires_under() {
    let mut meter = meter(5, 1, 1);
    assert_eq!(sample(&mut meter, [101, 0, 0]), Some(Letter::G));
    assert_eq!(codes(&meter), [65, 64]);
    // L1 fires under and L2 over. The switch is at 2, where h would move it.
    assert_eq!(sample(&mut meter, [0, 201, 0]), None);
    assert_eq!(codes(&meter)[2..], [66, 65]);
    assert_eq!(meter.common().switch, READY);
    assert_eq!(call(&mut meter, 3, 0), Ok(None));

    // The same with the switch at 1, where g moves it.
    let mut meter = self::meter(5, 1, 1);
    assert_eq!(sample(&mut meter, [0, 201, 0]), Some(Letter::G));
    meter = moved_without_key(meter);
    assert_eq!(exceeded(&meter), [false, true, false, false]);
    assert_eq!(sample(&mut meter, [101, 0, 0]), Some(Letter::G));
    assert_eq!(codes(&meter).split_off(4), [65, 66, 64]);
}

/// Back to Connected by a remote reconnect in mode 2, which leaves the limiter.
fn moved_without_key(mut meter: Meter) -> Meter {
    let mode = meter.common().mode;
    assert_eq!(call(&mut meter, 6, 2), Ok(None));
    assert_eq!(call(&mut meter, 2, 0), Ok(Some(Letter::C)));
    assert_eq!(call(&mut meter, 3, 0), Ok(Some(Letter::A)));
    assert_eq!(call(&mut meter, 6, mode.into()), Ok(None));
    assert_eq!(meter.common().switch, CONNECTED);
    meter
}

#[test]
fn the_limiter_watches_in_mode_0_and_in_a_spell() {
    let mut meter = meter(0, 1, 1);
    assert_eq!(sample(&mut meter, [101, 0, 0]), None);
    assert_eq!(codes(&meter), [65]);
    assert_eq!(meter.common().switch, CONNECTED);
    assert_eq!(call(&mut meter, 6, 5), Ok(None));
    assert_eq!(call(&mut meter, 2, 0), Ok(Some(Letter::B)));
    assert_eq!(sample(&mut meter, [0, 0, 0]), None);
    assert_eq!(codes(&meter), [65, 62, 66]);
    assert_eq!(meter.common().switch, DISCONNECTED);
}

/// 2147483646 + 0 + 2147483646 = 4294967292, in 32 bits −4.
#[test]
fn the_sum_is_exact_above_32_bits() {
    let mut meter = Meter::fresh(1, [i32::MAX; LINES], 1, 1, 0).unwrap();
    let powers = [2_147_483_646, 0, 2_147_483_646];
    assert_eq!(sample(&mut meter, powers), Some(Letter::G));
    assert_eq!(exceeded(&meter), [false, false, false, true]);
    assert_eq!(codes(&meter), [65, 64]);
    // 2147483647 is equal to the threshold, and no power is above it.
    assert_eq!(sample(&mut meter, [i32::MAX, 0, 0]), None);
    assert_eq!(exceeded(&meter), [false; LINES]);
}

/// Three times −2147483648 is −6442450944, in 32 bits −2147483648; twice is 0.
#[test]
fn the_sum_is_exact_below_32_bits() {
    let mut meter = Meter::fresh(1, [0; LINES], 1, 1, 0).unwrap();
    assert_eq!(sample(&mut meter, [i32::MIN; 3]), None);
    assert_eq!(exceeded(&meter), [false; LINES]);
    // −2147483648 − 1 wraps to 2147483647, which would be over.
    assert_eq!(sample(&mut meter, [i32::MIN, -1, 0]), None);
    assert_eq!(exceeded(&meter), [false; LINES]);
    assert_eq!(codes(&meter), []);
}

#[test]
fn export_is_taken_off_the_sum() {
    let mut meter = meter(1, 1, 1);
    // −401 + 200 + 301 = 100: L3 alone is over.
    assert_eq!(sample(&mut meter, [-401, 200, 301]), Some(Letter::G));
    assert_eq!(exceeded(&meter), [false, false, true, false]);
    let mut meter = self::meter(1, 1, 1);
    assert_eq!(sample(&mut meter, [-100, -200, -300]), None);
    assert_eq!(sample(&mut meter, [100, 200, 200]), None);
    assert_eq!(exceeded(&meter), [false; LINES]);
    assert_eq!(sample(&mut meter, [100, 200, 201]), Some(Letter::G));
    assert_eq!(exceeded(&meter), [false, false, false, true]);
}

/// "A5's reconnect acts on all four lines"
#[test]
fn the_key_arms_every_line() {
    let mut meter = meter(1, 1, 3);
    assert_eq!(sample(&mut meter, [101, 201, 301]), Some(Letter::G));
    assert_eq!(sample(&mut meter, [0, 201, 0]), None);
    assert_eq!(exceeded(&meter), [true; LINES]);
    assert_eq!(runs(&meter), [1, 0, 1, 1]);
    assert_eq!(call(&mut meter, 5, 0), Ok(Some(Letter::E)));
    assert_eq!(exceeded(&meter), [false; LINES]);
    assert_eq!(runs(&meter), [0; LINES]);
    assert_eq!(codes(&meter), [65, 65, 65, 65, 64, 61]);
    // With the kettle still on it is cut again.
    assert_eq!(sample(&mut meter, [0, 201, 0]), Some(Letter::G));
    assert_eq!(codes(&meter)[6..], [65, 64]);
}

/// "a manual reconnect that moves the switch" (02, A5)
#[test]
fn a_key_that_moves_nothing_arms_nothing() {
    let mut meter = meter(1, 2, 2);
    sample(&mut meter, [101, 0, 301]);
    assert_eq!(runs(&meter), [1, 0, 1, 0]);
    assert_eq!(call(&mut meter, 5, 0), Ok(None));
    assert_eq!(runs(&meter), [1, 0, 1, 0]);
    // Run 0 also on lines that are not exceeded.
    assert_eq!(call(&mut meter, 4, 0), Ok(Some(Letter::F)));
    assert_eq!(call(&mut meter, 5, 0), Ok(Some(Letter::E)));
    assert_eq!(runs(&meter), [0; LINES]);
}

/// "call 7 sets each Run 0 and logs one 67"; every Exceeded stays.
#[test]
fn a_limiter_setting_writes_one_line() {
    let mut meter = meter(0, 1, 2);
    sample(&mut meter, [101, 0, 301]);
    sample(&mut meter, [0, 0, 301]);
    assert_eq!(runs(&meter), [1, 0, 0, 0]);
    assert_eq!(set_limiter(&mut meter, [1, 2, 3, 4], 5, 6), 0);
    assert_eq!(exceeded(&meter), [true, false, true, false]);
    assert_eq!(runs(&meter), [0; LINES]);
    assert_eq!(meter.lines.map(|line| line.threshold), [1, 2, 3, 4]);
    assert_eq!((meter.over, meter.under), (5, 6));
    assert_eq!(log_3(&meter)[2..], [(1002, 67)]);
}

/// "4 if one is negative", before 5.
#[test]
fn each_negative_threshold_is_refused_first() {
    for place in 0..LINES {
        let mut thresholds = THRESHOLDS;
        thresholds[place] = -1;
        let mut meter = meter(5, 2, 3);
        sample(&mut meter, [101, 201, 301]);
        let before = meter;
        assert_eq!(set_limiter(&mut meter, thresholds, 1, 1), 4, "{place}");
        assert_eq!(set_limiter(&mut meter, thresholds, 0, 86_401), 4, "{place}");
        assert_eq!(meter, before);
        let fresh = |mode, over| Meter::fresh(mode, thresholds, over, 1, 0).err();
        assert_eq!(fresh(6, 1), Some(4));
        assert_eq!(fresh(6, 0), Some(4));
        assert_eq!(fresh(7, 0), Some(1));
    }
}

#[test]
fn durations_have_their_range() {
    let mut meter = meter(5, 2, 3);
    for (over, under, answer) in [
        (1, 86_400, 0),
        (86_400, 1, 0),
        (0, 1, 5),
        (1, 0, 5),
        (86_401, 1, 5),
        (1, 86_401, 5),
        (65_537 << 8, 1, 5),
    ] {
        assert_eq!(set_limiter(&mut meter, THRESHOLDS, over, under), answer);
        let fresh = Meter::fresh(6, THRESHOLDS, over, under, 0);
        assert_eq!(fresh.err().unwrap_or(0), answer);
    }
    assert_eq!(Meter::fresh(256, THRESHOLDS, 1, 1, 0).err(), Some(1));
}

/// "A3's profile and area aren't offered here, its kinds get 13"
#[test]
fn other_kinds_are_refused_before_the_page() {
    for kind in [0, 16, 17, 18, 256 + 1, u32::MAX] {
        let mut page = page_of(&meter(5, 1, 1));
        page[0] = 9;
        let before = page;
        let refused = Meter::call_on_page(&mut page, BUILT_IN, kind, [0; NUMBERS]);
        assert_eq!(refused, Err(refusal::KIND), "{kind}");
        let refused = Meter::call_on_page(&mut page[..7], BUILT_IN, kind, [0; NUMBERS]);
        assert_eq!(refused, Err(refusal::KIND), "{kind}");
        assert_eq!(page, before);
        // And before the record.
        let mut unsound = meter(5, 1, 1);
        unsound.lines[SUM].run = 1;
        let refused = unsound.command(BUILT_IN, kind, [0; NUMBERS]);
        assert_eq!(refused, Err(refusal::KIND), "{kind}");
    }
}

#[test]
fn an_unsound_line_is_refused() {
    for place in 0..LINES {
        for line in [
            Line {
                threshold: -1,
                ..Line::default()
            },
            Line {
                run: 2,
                ..Line::default()
            },
            Line {
                run: 3,
                exceeded: true,
                ..Line::default()
            },
        ] {
            let mut meter = meter(5, 2, 3);
            meter.lines[place] = line;
            let before = meter;
            assert_eq!(call(&mut meter, 2, 0), Err(refusal::UNSOUND));
            assert_eq!(meter, before);
            let mut page = [0xaa; PAGE];
            let written = meter.write_page(BUILT_IN, &mut page);
            assert_eq!((written, page), (Err(refusal::UNSOUND), [0xaa; PAGE]));
        }
        let mut meter = meter(5, 2, 3);
        meter.lines[place] = Line {
            threshold: i32::MAX,
            exceeded: true,
            run: 2,
        };
        assert!(meter.sound(BUILT_IN));
    }
}

/// A meter of which every field has bytes of its own.
fn busy() -> Meter {
    let thresholds = [0x0102_0304, 0x1112_1314, 0x2122_2324, 0x3132_3334];
    let mut meter = Meter::fresh(6, thresholds, 0x0001_0203, 0x0000_4142, 0x5152_5354).unwrap();
    assert_eq!(call(&mut meter, 9, 7), Ok(None));
    assert_eq!(call(&mut meter, 9, 40), Ok(None));
    assert_eq!(call(&mut meter, 10, 0x6162_6364), Ok(None));
    assert_eq!(call(&mut meter, 11, 0x7172_7374), Ok(None));
    assert_eq!(call(&mut meter, 2, 0), Ok(Some(Letter::B)));
    meter.lines[0].run = 0x0000_8182;
    meter.lines[1].exceeded = true;
    meter.lines[1].run = 0x0000_2223;
    meter.lines[2].run = 0x0000_9192;
    meter.lines[SUM].exceeded = true;
    meter.lines[SUM].run = 0x0000_3435;
    assert!(meter.sound(BUILT_IN));
    meter
}

#[test]
fn the_page_has_its_fields() {
    let page = page_of(&busy());
    let pairs = PAIRS.map(|(offset, length)| [offset.to_be_bytes(), length.to_be_bytes()]);
    assert_eq!(page[..32], *pairs.as_flattened().as_flattened());
    let listed = [
        0, 32, 0, 6, 0, 38, 0, 44, 0, 82, 0, 4, 0, 86, 0, 9, 0, 95, 0, 8, 0, 103, 0, 161, 1, 8, 0,
        161, 1, 169, 0, 161,
    ];
    assert_eq!(page[..32], listed);
    assert_eq!(page[32..38], [6, 0, 0, 0, 0, 1]);
    // Over, Under.
    assert_eq!(page[38..46], [0, 1, 2, 3, 0, 0, 0x41, 0x42]);
    // L1, L2, L3, sum: threshold, Exceeded, Run.
    assert_eq!(page[46..55], [1, 2, 3, 4, 0, 0, 0, 0x81, 0x82]);
    let l2 = [0x11, 0x12, 0x13, 0x14, 1, 0, 0, 0x22, 0x23];
    assert_eq!(page[55..64], l2);
    let l3 = [0x21, 0x22, 0x23, 0x24, 0, 0, 0, 0x91, 0x92];
    assert_eq!(page[64..73], l3);
    let sum = [0x31, 0x32, 0x33, 0x34, 1, 0, 0, 0x34, 0x35];
    assert_eq!(page[73..82], sum);
    assert_eq!(number(&page, 82), 0x5152_5354);
    // Event 7 raises bit 1 in both registers, event 40 alarm bit 13.
    assert_eq!(number(&page, 86), 0x2002);
    assert_eq!(number(&page, 90), 0x6162_6364);
    assert_eq!(page[94], 2);
    assert_eq!(number(&page, 95), 2);
    assert_eq!(number(&page, 99), 0x7172_7374);
    for (log, code) in [(103, 7), (264, 40), (425, 62)] {
        assert_eq!(page[log], 1);
        assert_eq!(page[log + 1..log + 6], [0x51, 0x52, 0x53, 0x54, code]);
        assert!(page[log + 6..log + 161].iter().all(|&byte| byte == 0));
    }
    assert_eq!(Meter::read_page(&page, BUILT_IN), Ok(busy()));
}

#[test]
fn the_writer_leaves_what_lies_past_the_page() {
    let mut buffer = [0x5a; PAGE + 9];
    assert_eq!(busy().write_page(BUILT_IN, &mut buffer), Ok(()));
    assert_eq!(buffer[..PAGE], page_of(&busy()));
    assert_eq!(buffer[PAGE..], [0x5a; 9]);
    let mut short = [0x5a; PAGE - 1];
    let refused = busy().write_page(BUILT_IN, &mut short);
    assert_eq!(refused, Err(refusal::BUFFER));
    assert_eq!(short, [0x5a; PAGE - 1]);
}

#[test]
fn the_reader_refuses_in_order() {
    let page = page_of(&busy());
    let read = |bytes: &[u8]| Meter::read_page(bytes, BUILT_IN).err().unwrap_or(0);
    let with = |place: usize, byte: u8| {
        let mut page = page;
        page[place] = byte;
        page
    };
    assert_eq!(read(&page), 0);
    assert_eq!(read(&page[..PAGE - 1]), 9);
    assert_eq!(read(&[&page[..], &[0]].concat()), 9);
    for (place, byte) in page.iter().enumerate().take(32) {
        assert_eq!(read(&with(place, byte ^ 1)), 10, "{place}");
    }
    for line in [46, 55, 64, 73] {
        // A threshold's top bit, an Exceeded above 1, a Run of 65539 or more.
        assert_eq!(read(&with(line, page[line] | 0x80)), 11);
        assert_eq!(read(&with(line + 4, 2)), 11);
        assert_eq!(read(&with(line + 6, 1)), 11);
    }
    // Neither duration may be 0 or above 86,400.
    assert_eq!(read(&with(38, 1)), 11);
    assert_eq!(read(&with(42, 1)), 11);
    // Mode 7, switch 3, one alarm more than stand, a code of another log.
    assert_eq!(read(&with(32, 7)), 11);
    assert_eq!(read(&with(33, 3)), 11);
    assert_eq!(read(&with(94, 3)), 11);
    assert_eq!(read(&with(103 + 5, 40)), 11);
    // Mode 0 demands switch 1.
    assert_eq!(read(&with(32, 0)), 11);
}

/// "A record or page with another number isn't sound." (02, A6)
#[test]
fn the_alarms_are_counted() {
    let mut meter = meter(5, 1, 1);
    assert_eq!(call(&mut meter, 9, 6), Ok(None));
    assert_eq!(call(&mut meter, 9, 44), Ok(None));
    assert_eq!(call(&mut meter, 9, 6), Ok(None));
    assert_eq!(meter.common().alarms, 0x2001);
    assert_eq!(page_of(&meter)[94], 2);
    assert_eq!(call(&mut meter, 12, 0x2000), Ok(None));
    assert_eq!(page_of(&meter)[94], 1);
}

/// "soundness of log codes is against that table" (02, A8)
#[test]
fn an_own_table_serves() {
    let own = Table::load(&[70, 3, 31, 255]).unwrap();
    let mut meter = meter(5, 1, 1);
    let answer = meter.command(&own, 9, [70, 0, 0, 0, 0, 0]);
    assert_eq!(answer, Ok(None));
    assert_eq!(meter.common().alarms, 1 << 31);
    let answer = meter.command(&own, 9, [6, 0, 0, 0, 0, 0]);
    assert_eq!(answer, Err(refusal::CODE));
    let mut page = [0; PAGE];
    assert_eq!(meter.write_page(&own, &mut page), Ok(()));
    assert_eq!(Meter::read_page(&page, &own), Ok(meter));
    let refused = Meter::read_page(&page, BUILT_IN);
    assert_eq!(refused, Err(refusal::UNSOUND_PAGE));
}

/// The calls that the one-phase meter has word for word.
#[test]
fn the_other_calls_are_those_of_one_phase() {
    let mut meter = meter(2, 1, 1);
    assert_eq!(call(&mut meter, 15, 1), Ok(Some(Letter::B)));
    assert_eq!(call(&mut meter, 15, 2), Ok(Some(Letter::A)));
    assert_eq!(call(&mut meter, 4, 0), Ok(Some(Letter::F)));
    // "There a remote reconnect now also moves 2 to 1" (02, A1)
    assert_eq!(call(&mut meter, 3, 0), Ok(Some(Letter::A)));
    assert_eq!(codes(&meter), [62, 63, 60, 63]);
    assert_eq!(call(&mut meter, 15, 257), Err(3));
    assert_eq!(call(&mut meter, 6, 256), Err(1));
    assert_eq!(call(&mut meter, 9, 262), Err(6));
    assert_eq!(call(&mut meter, 14, 257), Err(7));
    assert_eq!(call(&mut meter, 8, 5), Ok(None));
    let lines: Vec<_> = meter.common().logs[STANDARD].lines().collect();
    assert_eq!(lines, [(1000, 4), (5, 5)]);
    assert_eq!(call(&mut meter, 14, 3), Ok(None));
    assert_eq!(log_3(&meter), [(5, 255)]);
    assert_eq!(call(&mut meter, 6, 0), Ok(None));
    for kind in 2..=5 {
        assert_eq!(call(&mut meter, kind, 0), Err(2));
    }
}

#[test]
fn the_clock_is_held_at_its_end() {
    let mut meter = Meter::fresh(5, THRESHOLDS, 1, 1, u32::MAX - 1).unwrap();
    assert_eq!(sample(&mut meter, [0; 3]), None);
    assert_eq!(sample(&mut meter, [101, 0, 0]), Some(Letter::G));
    assert_eq!(log_3(&meter), [(u32::MAX, 65), (u32::MAX, 64)]);
}

fn record(kind: u8, numbers: &[u32]) -> [u8; RECORD] {
    let mut bytes = [0x77; RECORD];
    bytes[0] = kind;
    for (place, number) in bytes[1..].chunks_mut(4).zip(numbers) {
        place.copy_from_slice(&number.to_be_bytes());
    }
    bytes
}

const FRESH: [u32; 8] = [5, 100, 200, 300, 500, 1, 2, 1000];

#[test]
fn a_list_gives_the_page_of_its_calls() {
    let list = [
        record(0, &FRESH),
        record(1, &[101, 201, 199]),
        record(16, &[1, 0x0001_0000]),
        record(0, &FRESH),
        record(7, &[1, 2, 3, 4, 5, 6]),
        record(5, &[]),
        record(7, &[1, 2, 3, u32::MAX, 5, 6]),
    ];
    let mut meter = meter(5, 1, 2);
    assert_eq!(sample(&mut meter, [101, 201, 199]), Some(Letter::G));
    assert_eq!(set_limiter(&mut meter, [1, 2, 3, 4], 5, 6), 0);
    assert_eq!(call(&mut meter, 5, 0), Ok(Some(Letter::E)));
    let mut page = [0x5a; PAGE + 2];
    let replayed = Meter::replay(list.as_flattened(), BUILT_IN, &mut page);
    assert_eq!(replayed, Ok(()));
    assert_eq!(page[..PAGE], page_of(&meter));
    assert_eq!(page[PAGE..], [0x5a; 2]);
}

#[test]
fn lists_are_refused_in_order() {
    let replay = |list: &[u8], length: usize| {
        let mut page = vec![0x5a; length];
        let answer = Meter::replay(list, BUILT_IN, &mut page);
        assert!(answer.is_ok() || page.iter().all(|&byte| byte == 0x5a));
        answer.err().unwrap_or(0)
    };
    let fresh = record(0, &FRESH);
    let cut = |first: [u8; RECORD]| [&first[..], &[1; 7]].concat();
    assert_eq!(replay(&[], 0), 100);
    assert_eq!(replay(&fresh[..32], 0), 102);
    assert_eq!(replay(&record(1, &FRESH)[..32], 0), 102);
    assert_eq!(replay(&cut(record(16, &FRESH)), 0), 101);
    assert_eq!(replay(&cut(record(0, &[7, 1 << 31, 0, 0, 0, 0])), 0), 1);
    let negative = [6, 0, 0, 0, 1 << 31, 0, 0, 0];
    assert_eq!(replay(&cut(record(0, &negative)), 0), 4);
    assert_eq!(replay(&cut(record(0, &[6, 0, 0, 0, 0, 1, 0, 0])), 0), 5);
    assert_eq!(replay(&cut(fresh), 0), 102);
    assert_eq!(replay(&fresh, PAGE - 1), 8);
    assert_eq!(replay(&fresh, PAGE), 0);
}

/// A generator of random numbers (splitmix64).
struct Random(u64);

impl Random {
    fn below(&mut self, end: u64) -> u64 {
        self.0 = self.0.wrapping_add(0x9e37_79b9_7f4a_7c15);
        let mixed = (self.0 ^ (self.0 >> 30)).wrapping_mul(0xbf58_476d_1ce4_e5b9);
        let mixed = (mixed ^ (mixed >> 27)).wrapping_mul(0x94d0_49bb_1331_11eb);
        (mixed ^ (mixed >> 31)) % end
    }
}

/// The one-phase meter and a three-phase one of which one line alone can be over,
/// its power on one phase.
struct Pair {
    one_phase: plain::Meter,
    three_phase: Meter,
    line: usize,
}

impl Pair {
    fn call(&mut self, kind: u32, number: u32) {
        let phase = self.line % 3;
        let mut numbers = [number, 0, 0, 0, 0, 0];
        if kind == 1 {
            numbers = [0; NUMBERS];
            numbers[phase] = number;
        }
        let one_phase = self.one_phase.command(BUILT_IN, kind, [number, 0, 0, 0, 0]);
        let three_phase = self.three_phase.command(BUILT_IN, kind, numbers);
        assert_eq!(three_phase, one_phase, "kind {kind}, number {number}");
    }

    fn set_limiter(&mut self, threshold: i32, over: u32, under: u32) {
        let numbers = [threshold as u32, over, under, 0, 0];
        let one_phase = self.one_phase.command(BUILT_IN, 7, numbers);
        let thresholds = of_line(self.line, threshold);
        let refused = set_limiter(&mut self.three_phase, thresholds, over, under);
        assert_eq!(refused, one_phase.err().unwrap_or(0));
    }

    fn agrees(&self) {
        let (ours, theirs) = (&self.one_phase, &self.three_phase);
        let line = theirs.lines[self.line];
        assert_eq!((line.exceeded, line.run), (ours.exceeded, ours.run));
        // What follows the limiter lies in the same order on both pages.
        let mut page = [0; plain::PAGE];
        ours.write_page(BUILT_IN, &mut page).unwrap();
        assert_eq!(page_of(theirs)[32..38], page[36..42]);
        assert_eq!(page_of(theirs)[82..586], page[59..563]);
    }
}

/// A threshold for one line, and one that no power is over for the others.
fn of_line(line: usize, threshold: i32) -> [i32; LINES] {
    let mut thresholds = [i32::MAX; LINES];
    thresholds[line] = threshold;
    thresholds
}

/// "One argument serves all lines": with one line in use, whichever it is, the
/// meter is the one-phase meter.
#[test]
fn one_line_in_use_is_the_one_phase_meter() {
    let mut random = Random(13);
    for history in 0..400 {
        let line = history % LINES;
        let mode = random.below(7) as u32;
        let (over, under) = (1 + random.below(3) as u32, 1 + random.below(3) as u32);
        let mut pair = Pair {
            one_phase: plain::Meter::fresh(mode, 10, over, under, 7).unwrap(),
            three_phase: Meter::fresh(mode, of_line(line, 10), over, under, 7).unwrap(),
            line,
        };
        for _ in 0..100 {
            match random.below(24) {
                0 => pair.set_limiter(10, 1 + random.below(3) as u32, random.below(3) as u32),
                1 => pair.set_limiter(10 - 11 * random.below(2) as i32, 2, 2),
                2 => pair.call(6, random.below(8) as u32),
                3 => pair.call(9, random.below(17) as u32),
                4 => pair.call(10, random.below(16) as u32),
                5 => pair.call(12, random.below(16) as u32),
                6 => pair.call(15, random.below(4) as u32),
                7 => pair.call(14, random.below(5) as u32),
                kind @ 8..=11 => pair.call(kind as u32 - 6, 0),
                12 => pair.call(8, random.below(1000) as u32),
                _ => pair.call(1, 10 + random.below(2) as u32),
            }
            pair.agrees();
        }
    }
}
