//! Plain, the reference implementation, with either test of the logs: the same
//! loops as the proved core's.

use crate::event_table::EventTable;
use crate::side::{Call, Calls, Page, Side};
use plain::{Faultless, Table};
use std::hint::black_box;

/// Where the page has the last byte of the clock.
const CLOCK_END: usize = 62;

pub struct Plain<const VECTORS: bool>;

impl<const VECTORS: bool> Side for Plain<VECTORS> {
    fn name(&self) -> &'static str {
        if VECTORS { "vectorised" } else { "idiomatic" }
    }

    fn calls(
        &self,
        page: &mut Page,
        table: &EventTable,
        records: &[u8],
        rounds: u32,
        by: Calls,
    ) -> u32 {
        let table = loaded(table);
        let mut meter = match Faultless::<VECTORS>::read_page(page, table) {
            Ok(meter) => meter,
            Err(refusal) => return refusal.into(),
        };
        for _ in 0..rounds {
            match by {
                Calls::OfList => meter.run(table, black_box(records)),
                Calls::ByMethod => meter.run_tested(table, black_box(records)),
            }
        }
        number(meter.write_page(table, page))
    }

    fn sound(&self, page: &Page, table: &EventTable, rounds: u32) -> u32 {
        let table = loaded(table);
        let mut meter = Faultless::<VECTORS>::read_page(page, table).unwrap_or_default();
        let mut sound = 0;
        for round in 0..rounds {
            meter.clock = round;
            sound += u32::from(black_box(&meter).sound(table));
        }
        sound
    }

    fn write(&self, page: &mut Page, table: &EventTable, rounds: u32) -> u32 {
        let table = loaded(table);
        let mut meter = Faultless::<VECTORS>::read_page(page, table).unwrap_or_default();
        let mut accepted = 0;
        for round in 0..rounds {
            meter.clock = round;
            let answer = black_box(&meter).write_page(table, black_box(page));
            accepted += u32::from(answer.is_ok());
        }
        accepted
    }

    fn read(&self, page: &mut Page, table: &EventTable, rounds: u32) -> u32 {
        let table = loaded(table);
        let mut accepted = 0;
        for round in 0..rounds {
            page[CLOCK_END] = round as u8;
            let read = Faultless::<VECTORS>::read_page(black_box(page), table);
            accepted += u32::from(black_box(&read).is_ok());
        }
        accepted
    }

    fn call_on_page(&self, page: &mut Page, table: &EventTable, call: Call, rounds: u32) -> u32 {
        let Call { kind, numbers } = call;
        let table = loaded(table);
        let answer = |_| {
            number(Faultless::<VECTORS>::call_on_page(
                black_box(page),
                table,
                kind,
                numbers,
            ))
        };
        (0..rounds).map(answer).sum()
    }

    fn replay(&self, list: &[u8], table: &EventTable, page: &mut Page, rounds: u32) -> u32 {
        let table = loaded(table);
        let answer = |_| number(Faultless::<VECTORS>::replay(black_box(list), table, page));
        (0..rounds).map(answer).sum()
    }

    fn judge(&self, table: &EventTable, rounds: u32) -> u32 {
        let accepted = |_| {
            let loaded = Table::load(black_box(&table.bytes));
            u32::from(black_box(&loaded).is_ok())
        };
        (0..rounds).map(accepted).sum()
    }
}

/// The table, as one that a meter learns only when it runs.
fn loaded(table: &EventTable) -> &Table {
    black_box(&table.plain)
}

fn number<T>(answer: Result<T, u8>) -> u32 {
    answer.err().unwrap_or(0).into()
}
