//! The proved core: its loops on a record in memory, and its C interface, whose
//! state is the page.

use crate::event_table::EventTable;
use crate::side::{Call, Calls, Page, Side};
use pillar::Answer;
use std::hint::black_box;

/// What runs the loops on a record.
#[cfg(not(feature = "stand-in"))]
const LOOPS: crate::measure::Measure = crate::measure::Measure;
#[cfg(feature = "stand-in")]
const LOOPS: crate::plain_side::Plain<false> = crate::plain_side::Plain;

pub struct Proved;

impl Side for Proved {
    fn name(&self) -> &'static str {
        if pillar::STAND_IN {
            return "stand-in";
        }
        "proved"
    }

    fn calls(
        &self,
        page: &mut Page,
        table: &EventTable,
        records: &[u8],
        rounds: u32,
        by: Calls,
    ) -> u32 {
        LOOPS.calls(page, table, records, rounds, by)
    }

    fn sound(&self, page: &Page, table: &EventTable, rounds: u32) -> u32 {
        LOOPS.sound(page, table, rounds)
    }

    fn write(&self, page: &mut Page, table: &EventTable, rounds: u32) -> u32 {
        LOOPS.write(page, table, rounds)
    }

    fn read(&self, page: &mut Page, table: &EventTable, rounds: u32) -> u32 {
        LOOPS.read(page, table, rounds)
    }

    fn call_on_page(&self, page: &mut Page, table: &EventTable, call: Call, rounds: u32) -> u32 {
        let Call { kind, numbers } = call;
        let table = black_box(&table.bytes);
        let answer = |_| number(pillar::call(black_box(page), table, kind, numbers).answer);
        (0..rounds).map(answer).sum()
    }

    fn replay(&self, list: &[u8], table: &EventTable, page: &mut Page, rounds: u32) -> u32 {
        let table = black_box(&table.bytes);
        let answer = |_| number(pillar::replay(black_box(list), table, page));
        (0..rounds).map(answer).sum()
    }

    fn judge(&self, table: &EventTable, rounds: u32) -> u32 {
        let accepted = |_| u32::from(pillar::table(black_box(&table.bytes)).is_ok());
        (0..rounds).map(accepted).sum()
    }
}

fn number(answer: Answer) -> u32 {
    answer.err().unwrap_or(0)
}
