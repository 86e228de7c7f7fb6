//! The jobs that are measured.

use crate::event_table::EventTable;
use crate::side::{Call, Calls, Page, Side};
use crate::start::Start;
use plain::{LINES, LONGEST_EMERGENCY, refusal};
use std::sync::Arc;

/// How many calls a list of one kind of call has.
const CALLS: usize = 1_000;
/// How often a short job is done within one timing, and such a list run.
const TIMES: u32 = 2_000;
const LIST_TIMES: u32 = 4;

/// The lengths of the mixed lists, in records, and of that with an own table.
pub const LENGTHS: [usize; 3] = [1_000, 10_000, 100_000];
const OWN_LENGTH: usize = 10_000;

pub struct Item {
    pub name: String,
    /// How many operations (calls, records, tests, pages, tables) a round has.
    pub operations: usize,
    /// How many rounds one timing has.
    pub rounds: u32,
    start: Start,
    job: Job,
}

enum Job {
    Calls(Vec<u8>, Calls),
    Sound,
    Write,
    Read,
    CallOnPage(Call),
    Replay(Vec<u8>),
    Judge,
}

impl Item {
    /// Does the job and answers a digest of what came of it.
    pub fn run(&self, side: &dyn Side, rounds: u32) -> u64 {
        let Start { mut page, table } = self.start.clone();
        let (page, table) = (&mut page, &*table);
        let answer = match &self.job {
            Job::Calls(records, by) => side.calls(page, table, records, rounds, *by),
            Job::Sound => side.sound(page, table, rounds),
            Job::Write => side.write(page, table, rounds),
            Job::Read => side.read(page, table, rounds),
            Job::CallOnPage(call) => side.call_on_page(page, table, *call, rounds),
            Job::Replay(list) => side.replay(list, table, page, rounds),
            Job::Judge => side.judge(table, rounds),
        };
        digest(answer, page)
    }

    /// How many operations so many rounds have.
    pub fn operations_in(&self, rounds: u32) -> f64 {
        self.operations as f64 * f64::from(rounds)
    }
}

const SETTINGS: [u32; 5] = [5, 3000, 2, 3, 1000];
/// Fires at every change between over and not over.
const HASTY: [u32; 5] = [5, 3000, 1, 1, 1000];

const QUIET: [Call; 3] = [call(1, 3000), call(1, 0), call(1, 1200)];
const FIRING: [Call; 2] = [call(1, 3001), call(1, 3000)];
const REQUESTS: [Call; 5] = [call(2, 0), call(15, 2), call(5, 0), call(4, 0), call(3, 0)];
const CHANGES: [Call; 7] = [
    call(6, 5),
    Call {
        kind: 7,
        numbers: [3000, 2, 3, 0, 0],
    },
    call(8, 77),
    call(10, 2),
    call(11, 2),
    call(12, 2),
    call(13, 2),
];
const EMERGENCIES: [Call; 2] = [
    Call {
        kind: 16,
        numbers: [3, 0x0007_0008, 0x0009_0000, 0, 0],
    },
    Call {
        kind: 17,
        numbers: [7, 4000, 0, LONGEST_EMERGENCY, 0],
    },
];
const CLEARINGS: [Call; 3] = [call(14, 1), call(14, 2), call(14, 3)];
/// Refused, so that no page is written: mode 7.
const REFUSED: Call = call(6, 7);
/// Neither empty nor full, and no whole number of vectors.
const SOME_LINES: usize = 11;

/// Where a 7 makes a reader refuse the page: the end of the last pair, the mode.
const PAIR_END: usize = 35;
const MODE: usize = 36;

/// Events of a table, as calls. Those of the own table are of the same logs as the
/// built-in ones, and raise as many bits.
struct Events {
    table: Arc<EventTable>,
    /// One for each log, then one more standard event.
    reported: [Call; 4],
    /// The event of a mixed list, which raises bit 1 in both registers.
    mixed: Call,
}

impl Events {
    fn built_in() -> Events {
        Events {
            table: Arc::new(EventTable::built_in()),
            reported: [6, 40, 68, 15].map(event),
            mixed: event(7),
        }
    }

    /// Of a table of as many lines as there are built-in events.
    fn own() -> Events {
        Events {
            table: Arc::new(EventTable::own(20, 18)),
            reported: [20, 21, 22, 26].map(event),
            mixed: event(23),
        }
    }

    /// The calls that put so many lines into each log.
    fn filling(&self, lines: usize) -> Vec<Call> {
        self.reported[..3].repeat(lines)
    }

    fn page(&self, settings: [u32; 5], lines: usize) -> Start {
        Start::after(&self.table, settings, &self.filling(lines))
    }

    /// Full logs and the longest profile, which has governed a sample and outlasts
    /// every round.
    fn governed_page(&self) -> Start {
        let begun = [&EMERGENCIES[..], &QUIET[..1]].concat();
        let calls = [self.filling(LINES), begun].concat();
        Start::after(&self.table, SETTINGS, &calls)
    }

    /// A list of `length` records, fresh and the filling of the logs included.
    fn mixed_list(&self, name: String, length: usize) -> Item {
        let fresh = Call {
            kind: 0,
            numbers: SETTINGS,
        };
        let mixed = [
            call(1, 3001),
            call(1, 3001),
            call(5, 0),
            call(1, 0),
            self.mixed,
            call(1, 20),
            call(2, 0),
            call(3, 0),
            call(1, 7),
            call(8, 77),
            call(12, 2),
            call(6, 7),
        ];
        let filling = self.filling(LINES);
        let later = filling.iter().chain(mixed.iter().cycle());
        let list = records([&fresh].into_iter().chain(later).take(length));
        Item {
            name,
            operations: length,
            rounds: 1,
            start: Start::zeros(&self.table),
            job: Job::Replay(list),
        }
    }
}

/// Every item, in the table's order.
pub fn items() -> Vec<Item> {
    let mut items = built_in_items();
    items.extend(own_items());
    items
}

/// Those with the built-in event table.
fn built_in_items() -> Vec<Item> {
    let events = Events::built_in();
    let reported = &events.reported;
    let empty = &events.page(SETTINGS, 0);
    let some = &events.page(SETTINGS, SOME_LINES);
    let full = &events.page(SETTINGS, LINES);
    let hasty = &events.page(HASTY, LINES);
    let governed = &events.governed_page();
    let other_pair = &full.refused(PAIR_END, refusal::PAIR);
    let unsound = &full.refused(MODE, refusal::UNSOUND_PAGE);
    let mut items = vec![
        calls("quiet sample, empty logs", empty, &QUIET),
        calls("quiet sample, 11 lines a log", some, &QUIET),
        calls("quiet sample, full logs", full, &QUIET),
        calls("governed sample, full logs", governed, &QUIET),
        calls("firing sample, full logs", hasty, &FIRING),
        calls("event, full logs", full, reported),
        calls("request, full logs", full, &REQUESTS),
        calls("setting, full logs", full, &CHANGES),
        calls("groups and profile, full logs", full, &EMERGENCIES),
        calls("clear log", full, &CLEARINGS),
        methods("quiet sample by the method, empty logs", empty, &QUIET),
        methods("quiet sample by the method, 11 lines a log", some, &QUIET),
        methods("quiet sample by the method, full logs", full, &QUIET),
        methods("governed sample by the method, full logs", governed, &QUIET),
        methods("firing sample by the method, full logs", hasty, &FIRING),
        methods("event by the method, full logs", full, reported),
        methods("request by the method, full logs", full, &REQUESTS),
        methods("setting by the method, full logs", full, &CHANGES),
        methods("groups and profile by the method", full, &EMERGENCIES),
        methods("clear log by the method", full, &CLEARINGS),
        short("soundness, empty logs", empty, Job::Sound),
        short("soundness, full logs", full, Job::Sound),
        short("page write, empty logs", empty, Job::Write),
        short("page write, full logs", full, Job::Write),
        short("page read, empty logs", empty, Job::Read),
        short("page read, full logs", full, Job::Read),
        short("page read, a pair differs", other_pair, Job::Read),
        short("page read, not sound", unsound, Job::Read),
        short("page read + first answer", full, Job::CallOnPage(REFUSED)),
        short("page read + call + write", full, Job::CallOnPage(QUIET[0])),
    ];
    items.extend(LENGTHS.map(|length| events.mixed_list(mixed_name(length), length)));
    items
}

/// Those with an own event table.
fn own_items() -> Vec<Item> {
    let events = Events::own();
    let empty = &events.page(SETTINGS, 0);
    let some = &events.page(SETTINGS, SOME_LINES);
    let full = &events.page(SETTINGS, LINES);
    // None of its codes is barred.
    let longest = Arc::new(EventTable::own(70, 64));
    let (shorter, longest) = (&Start::zeros(&events.table), &Start::zeros(&longest));
    let method = |logs: &str, start: &Start| {
        let name = format!("quiet sample by the method, own table, {logs}");
        methods(&name, start, &QUIET)
    };
    let on_page = Job::CallOnPage(QUIET[0]);
    let list = format!("list, mixed, own table, {OWN_LENGTH} records");
    vec![
        calls("event, own table, full logs", full, &events.reported),
        method("empty logs", empty),
        method("11 lines a log", some),
        method("full logs", full),
        short("soundness, own table, full logs", full, Job::Sound),
        short("page write, own table, full logs", full, Job::Write),
        short("page read, own table, full logs", full, Job::Read),
        short("page read + call + write, own table", full, on_page),
        short("table of 18 lines judged", shorter, Job::Judge),
        short("table of 64 lines judged", longest, Job::Judge),
        events.mixed_list(list, OWN_LENGTH),
    ]
}

pub fn mixed_name(length: usize) -> String {
    format!("list, mixed, {length} records")
}

fn calls(name: &str, start: &Start, pattern: &[Call]) -> Item {
    many(name, start, pattern, Calls::OfList)
}

fn methods(name: &str, start: &Start, pattern: &[Call]) -> Item {
    many(name, start, pattern, Calls::ByMethod)
}

fn many(name: &str, start: &Start, pattern: &[Call], by: Calls) -> Item {
    Item {
        name: String::from(name),
        operations: CALLS,
        rounds: LIST_TIMES,
        start: start.clone(),
        job: Job::Calls(records(pattern.iter().cycle().take(CALLS)), by),
    }
}

fn short(name: &str, start: &Start, job: Job) -> Item {
    Item {
        name: String::from(name),
        operations: 1,
        rounds: TIMES,
        start: start.clone(),
        job,
    }
}

fn records<'a>(calls: impl Iterator<Item = &'a Call>) -> Vec<u8> {
    let mut bytes = Vec::new();
    for call in calls {
        bytes.push(call.kind as u8);
        for number in call.numbers {
            bytes.extend(number.to_be_bytes());
        }
    }
    bytes
}

/// FNV-1a over the answer and the page left.
fn digest(answer: u32, page: &Page) -> u64 {
    let mut digest = 0xcbf2_9ce4_8422_2325;
    for byte in answer.to_be_bytes().iter().chain(page) {
        digest = (digest ^ u64::from(*byte)).wrapping_mul(0x100_0000_01b3);
    }
    digest
}

const fn call(kind: u32, number: u32) -> Call {
    Call {
        kind,
        numbers: [number, 0, 0, 0, 0],
    }
}

const fn event(code: u32) -> Call {
    call(9, code)
}
