//! The pages that the jobs begin with, made by plain under their event tables.

use crate::event_table::EventTable;
use crate::side::{Call, Page};
use pillar::PAGE;
use plain::Meter;
use std::sync::Arc;

/// A page, and the event table that belongs to it.
#[derive(Clone)]
pub struct Start {
    pub page: Page,
    pub table: Arc<EventTable>,
}

impl Start {
    pub fn zeros(table: &Arc<EventTable>) -> Start {
        Start {
            page: [0; PAGE],
            table: Arc::clone(table),
        }
    }

    /// The page of a fresh meter after calls, all of them accepted.
    pub fn after(table: &Arc<EventTable>, settings: [u32; 5], calls: &[Call]) -> Start {
        let [mode, threshold, over, under, clock] = settings;
        let fresh = Meter::fresh(mode, threshold as i32, over, under, clock);
        let mut meter = fresh.expect("the settings are in range");
        for call in calls {
            let answer = meter.command(&table.plain, call.kind, call.numbers);
            answer.expect("the call is accepted");
        }
        let mut start = Start::zeros(table);
        let written = meter.write_page(&table.plain, &mut start.page);
        written.expect("a page holds a page");
        start
    }

    /// The page with 7 at a place. A reader then accepts none of its rounds, which
    /// says something only where the page is known to be refused.
    pub fn refused(&self, place: usize, number: u8) -> Start {
        let mut start = self.clone();
        start.page[place] = 7;
        let read = Meter::read_page(&start.page, &start.table.plain);
        assert_eq!(read.err(), Some(number));
        start
    }
}
