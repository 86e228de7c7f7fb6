//! The jobs that are measured. A round is one operation: a call on a page of its own,
//! or one record more in a list.

use crate::archive::Settings;
use crate::side::{Side, one_phase_page, three_phase_page};
use plain::three_phase;
use std::hint::black_box;

/// The most rounds that a run has; pages and records are made for so many, so that
/// making them costs the same in every run.
const MOST_ROUNDS: usize = 400;

/// The longest page and some more: a multiple of [`Place`]'s alignment.
const PLACE: usize = 640;

/// Pages begin at a place that suits vectors, each like the next: copies cost by
/// their alignment.
#[derive(Clone, Copy)]
#[repr(align(64))]
struct Place([u8; PLACE]);

pub struct Item {
    pub name: String,
    /// How many operations a round has.
    pub operations: usize,
    job: Job,
}

enum Job {
    ThreePhaseCall(Vec<u8>, u32, [u32; 6]),
    OnePhaseCall(Vec<u8>, u32, [u32; 5]),
    /// A list, fresh and then the same call again and again.
    ThreePhaseList(Vec<u8>),
    OnePhaseList(Vec<u8>),
}

impl Item {
    /// Does the job and answers a digest of what came of it.
    pub fn run(&self, side: &dyn Side, rounds: u32) -> u64 {
        let rounds = rounds as usize;
        assert!(rounds <= MOST_ROUNDS);
        match &self.job {
            Job::ThreePhaseCall(page, kind, numbers) => on_pages(page, rounds, |page| {
                side.three_phase_call(page, *kind, black_box(*numbers))
            }),
            Job::OnePhaseCall(page, kind, numbers) => on_pages(page, rounds, |page| {
                side.one_phase_call(page, *kind, black_box(*numbers))
            }),
            Job::ThreePhaseList(list) => {
                let mut page = [0; three_phase::PAGE];
                side.three_phase_replay(&list[..three_phase::RECORD * (1 + rounds)], &mut page);
                digest(&page)
            }
            Job::OnePhaseList(list) => {
                let mut page = [0; plain::PAGE];
                side.one_phase_replay(&list[..plain::RECORD * (1 + rounds)], &mut page);
                digest(&page)
            }
        }
    }

    /// How many operations so many rounds have.
    pub fn operations_in(&self, rounds: u32) -> f64 {
        self.operations as f64 * f64::from(rounds)
    }
}

/// Calls once on each of so many copies of a page.
fn on_pages(page: &[u8], rounds: usize, mut call: impl FnMut(&mut [u8]) -> u8) -> u64 {
    let mut first = Place([0; PLACE]);
    first.0[..page.len()].copy_from_slice(page);
    let mut places = vec![first; MOST_ROUNDS];
    let mut letters = 0_u64;
    for place in &mut places[..rounds] {
        letters += u64::from(call(black_box(&mut place.0[..page.len()])));
    }
    digest(&places[0].0) ^ letters
}

/// Mode 5, so that a firing over moves the switch.
const THREE_PHASE: Settings = Settings {
    mode: 5,
    thresholds: [1000, 2000, 3000, 4000],
    over: 1,
    under: 1,
    clock: 1000,
};

const ONE_PHASE: pillar::Settings = pillar::Settings {
    mode: 5,
    threshold: 1000,
    over: 1,
    under: 1,
    clock: 1000,
};

/// Every item, in the table's order.
pub fn items() -> Vec<Item> {
    let three_phase = |name: &str, kind, numbers| {
        let page = three_phase_page(THREE_PHASE);
        item(
            "three-phase",
            name,
            Job::ThreePhaseCall(page, kind, numbers),
        )
    };
    let one_phase = |name: &str, kind, number| {
        let page = one_phase_page(ONE_PHASE);
        let numbers = [number, 0, 0, 0, 0];
        item("one-phase", name, Job::OnePhaseCall(page, kind, numbers))
    };
    let record = "record of a list, quiet samples";
    vec![
        three_phase("call, quiet sample", 1, [700, 800, 900, 0, 0, 0]),
        one_phase("call, quiet sample", 1, 700),
        three_phase("call, sample, one line fires", 1, [1001, 0, 0, 0, 0, 0]),
        three_phase(
            "call, sample, four lines fire",
            1,
            [1001, 2001, 3001, 0, 0, 0],
        ),
        one_phase("call, sample that fires", 1, 1001),
        three_phase("call, remote disconnect", 2, [0; 6]),
        one_phase("call, remote disconnect", 2, 0),
        item(
            "three-phase",
            record,
            Job::ThreePhaseList(three_phase_list()),
        ),
        item("one-phase", record, Job::OnePhaseList(one_phase_list())),
    ]
}

fn item(meter: &str, name: &str, job: Job) -> Item {
    Item {
        name: format!("{meter}: {name}"),
        operations: 1,
        job,
    }
}

fn three_phase_list() -> Vec<u8> {
    let Settings {
        mode,
        thresholds: [l1, l2, l3, sum],
        over,
        under,
        clock,
    } = THREE_PHASE;
    let [l1, l2, l3, sum] = [l1, l2, l3, sum].map(|threshold| threshold as u32);
    let mut list = record(0, &[mode, l1, l2, l3, sum, over, under, clock]);
    for _ in 0..MOST_ROUNDS {
        list.extend(record(1, &[700, 800, 900, 0, 0, 0, 0, 0]));
    }
    list
}

fn one_phase_list() -> Vec<u8> {
    let pillar::Settings {
        mode,
        threshold,
        over,
        under,
        clock,
    } = ONE_PHASE;
    let mut list = record(0, &[mode, threshold as u32, over, under, clock]);
    for _ in 0..MOST_ROUNDS {
        list.extend(record(1, &[700, 0, 0, 0, 0]));
    }
    list
}

fn record(kind: u8, numbers: &[u32]) -> Vec<u8> {
    let numbers = numbers.iter().flat_map(|number| number.to_be_bytes());
    [kind].into_iter().chain(numbers).collect()
}

/// FNV-1a over the bytes.
fn digest(bytes: &[u8]) -> u64 {
    let mut digest = 0xcbf2_9ce4_8422_2325;
    for byte in bytes {
        digest = (digest ^ u64::from(*byte)).wrapping_mul(0x100_0000_01b3);
    }
    digest
}
