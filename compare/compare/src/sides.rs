//! The two sides, held at the same meter and table: plain as its record and the
//! table that serves, the proved core as its page and the table's bytes. Whatever is
//! done is done to both and compared at once.

use crate::call::Call;
use crate::case::Case;
use crate::counts::Counts;
use crate::difference::{Difference, Outcome, judge};
use crate::table::EventTable;
use crate::table_case::TableCase;
use pillar::{PAGE, Settings};
use plain::{Letter, Machine, Table};

/// What buffers hold before they are written.
const FILL: u8 = 0x5a;

pub type Compared<T> = Result<T, Box<Difference>>;

pub struct Sides<const FAULT: u8> {
    pub meter: Machine<FAULT>,
    pub page: [u8; PAGE],
    /// The page's table, and what serves for it in plain.
    pub table: EventTable,
    serving: Table,
    pub counts: Counts,
}

impl<const FAULT: u8> Sides<FAULT> {
    /// Both sides at the meter of mode 0, threshold 0, durations 1, clock 0.
    pub fn new() -> Compared<Self> {
        let mut sides = Sides {
            meter: Machine::default(),
            page: [0; PAGE],
            table: EventTable::built_in(),
            serving: Table::BuiltIn,
            counts: Counts::default(),
        };
        let settings = Settings {
            mode: 0,
            threshold: 0,
            over: 1,
            under: 1,
            clock: 0,
        };
        sides.fresh(settings, PAGE)?;
        Ok(sides)
    }

    /// Both judge these bytes as a table.
    pub fn judge_table(&mut self, bytes: &[u8]) -> Compared<()> {
        let answer = plain_number(Table::load_with::<FAULT>(bytes));
        let plain = Outcome {
            answer,
            letter: None,
            bytes,
        };
        let pillar = Outcome {
            answer: pillar_number(pillar::table(bytes)),
            letter: None,
            bytes,
        };
        self.counts.tables += 1;
        judge(plain, pillar, bytes, || {
            format!("judging a table of {} bytes", bytes.len())
        })?;
        self.counts.count_table_answer(answer);
        Ok(())
    }

    /// The table of the histories from here on. Both judge it, and the page that
    /// they hold under it.
    pub fn take_table(&mut self, table: EventTable, call: Call) -> Compared<()> {
        self.judge_table(&table.bytes)?;
        let page = self.page;
        self.inspect_under(&table, &page, call)?;
        self.serving = Table::serving_with::<FAULT>(&table.bytes).unwrap_or_default();
        self.table = table;
        Ok(())
    }

    /// A fresh meter, its page written into a buffer of `length` bytes.
    /// Answers whether it was accepted; only then do both sides take it over.
    pub fn fresh(&mut self, settings: Settings, length: usize) -> Compared<bool> {
        let mut plain = vec![FILL; length];
        let mut pillar = plain.clone();
        let meter = fresh_meter(settings);
        let written = meter.and_then(|meter| meter.write_page(&self.serving, &mut plain));
        let answer = plain_number(written);
        let outcome = Outcome {
            answer,
            letter: None,
            bytes: &plain,
        };
        let theirs = Outcome {
            answer: pillar_number(pillar::fresh(&mut pillar, settings)),
            letter: None,
            bytes: &pillar,
        };
        judge(outcome, theirs, &[], || {
            format!("fresh {settings:?} into {length} bytes")
        })?;
        self.counts.count_answer(answer);
        let (Ok(meter), Some(page)) = (meter, pillar.first_chunk()) else {
            return Ok(false);
        };
        self.meter = meter;
        self.page = *page;
        Ok(true)
    }

    /// One call on both sides.
    pub fn call(&mut self, call: Call) -> Compared<()> {
        let before = self.page;
        let Call { kind, numbers } = call;
        let ours = self.meter.command(&self.serving, kind, numbers);
        let theirs = pillar::call(&mut self.page, &self.table.bytes, kind, numbers);
        let (answer, letter) = (plain_number(ours), plain_letter(ours));
        let mut page = [FILL; PAGE];
        let written = plain_number(self.meter.write_page(&self.serving, &mut page));
        let plain = Outcome {
            answer: answer.max(written),
            letter,
            bytes: &page,
        };
        let pillar = Outcome {
            answer: pillar_number(theirs.answer),
            letter: pillar_letter(theirs),
            bytes: &self.page,
        };
        self.counts.calls += 1;
        judge(plain, pillar, &before, || format!("{call}{}", self.table))?;
        self.counts.count_answer(answer);
        if let Some(letter) = letter {
            self.counts.count_letter(letter);
        }
        if let Some(case) = Case::of(call, &before, &self.table) {
            self.counts.count_case(case);
        }
        for case in TableCase::of(call, &before, &self.table) {
            self.counts.count_table_case(case);
        }
        Ok(())
    }

    /// Both readers judge these bytes, and then both run a call on them.
    /// Answers whether the reader accepts them.
    pub fn inspect(&mut self, bytes: &[u8], call: Call) -> Compared<bool> {
        let answer = inspect::<FAULT>(&self.serving, &self.table, bytes, call)?;
        self.counts.pages += 1;
        self.counts.count_answer(answer);
        Ok(answer == 0)
    }

    /// The same under a table that need not be the page's own.
    pub fn inspect_under(&mut self, table: &EventTable, bytes: &[u8], call: Call) -> Compared<()> {
        let serving = match Table::serving_with::<FAULT>(&table.bytes) {
            Ok(serving) => serving,
            Err(refusal) => return refused_for_table(table, bytes, refusal),
        };
        let answer = inspect::<FAULT>(&serving, table, bytes, call)?;
        self.counts.pages += 1;
        self.counts.count_answer(answer);
        if table.lines() != self.table.lines() {
            self.counts.count_table_case(match answer {
                0 => TableCase::PageTaken,
                _ => TableCase::PageRefused,
            });
        }
        Ok(())
    }

    /// Goes on from this page if the reader accepts it; answers whether.
    pub fn adopt(&mut self, page: [u8; PAGE], call: Call) -> Compared<bool> {
        if !self.inspect(&page, call)? {
            return Ok(false);
        }
        if let Ok(meter) = Machine::read_page(&page, &self.serving) {
            self.meter = meter;
            self.page = page;
        }
        Ok(true)
    }

    /// A whole list, its page written into a buffer of `length` bytes.
    /// `page` is the one that the calls gave one by one, where it is known.
    pub fn replay(&mut self, list: &[u8], length: usize, page: Option<&[u8]>) -> Compared<()> {
        let mut ours = vec![FILL; length];
        let mut theirs = ours.clone();
        let replayed = Machine::<FAULT>::replay(list, &self.serving, &mut ours);
        let answer = plain_number(replayed);
        let their_answer = pillar_number(pillar::replay(list, &self.table.bytes, &mut theirs));
        let what = || {
            let (bytes, table) = (list.len(), &self.table);
            format!("replay of a list of {bytes} bytes into {length} bytes{table}")
        };
        let plain = Outcome {
            answer,
            letter: None,
            bytes: &ours,
        };
        let pillar = Outcome {
            answer: their_answer,
            letter: None,
            bytes: &theirs,
        };
        self.counts.lists += 1;
        judge(plain, pillar, list, what)?;
        self.counts.count_replay_answer(answer);
        if let Some(case) = TableCase::of_list(&self.table).filter(|_| answer == 0) {
            self.counts.count_table_case(case);
        }
        let Some(page) = page else {
            return Ok(());
        };
        let one_by_one = Outcome {
            answer: 0,
            letter: None,
            bytes: page,
        };
        let pillar = Outcome {
            answer: their_answer,
            letter: None,
            bytes: &theirs[..length.min(PAGE)],
        };
        judge(one_by_one, pillar, list, || {
            format!("{} against its calls one by one", what())
        })
    }
}

/// Both readers judge these bytes under a table, and then both run a call on them.
/// Answers the readers' answer.
fn inspect<const FAULT: u8>(
    serving: &Table,
    table: &EventTable,
    bytes: &[u8],
    call: Call,
) -> Compared<u32> {
    let answer = plain_number(Machine::<FAULT>::read_page(bytes, serving));
    let plain = Outcome {
        answer,
        letter: None,
        bytes,
    };
    let pillar = Outcome {
        answer: pillar_number(pillar::check(bytes, &table.bytes)),
        letter: None,
        bytes,
    };
    judge(plain, pillar, bytes, || {
        format!("reading a page of {} bytes{table}", bytes.len())
    })?;

    let Call { kind, numbers } = call;
    let mut ours = bytes.to_vec();
    let mut theirs = bytes.to_vec();
    let called = Machine::<FAULT>::call_on_page(&mut ours, serving, kind, numbers);
    let their_call = pillar::call(&mut theirs, &table.bytes, kind, numbers);
    let plain = Outcome {
        answer: plain_number(called),
        letter: plain_letter(called),
        bytes: &ours,
    };
    let pillar = Outcome {
        answer: pillar_number(their_call.answer),
        letter: pillar_letter(their_call),
        bytes: &theirs,
    };
    judge(plain, pillar, bytes, || {
        format!("{call} on a page of {} bytes{table}", bytes.len())
    })?;
    Ok(answer)
}

/// A blunder: plain refuses the table of a page, whatever the page.
fn refused_for_table(table: &EventTable, bytes: &[u8], refusal: u8) -> Compared<()> {
    let plain = Outcome {
        answer: refusal.into(),
        letter: None,
        bytes,
    };
    let pillar = Outcome {
        answer: pillar_number(pillar::check(bytes, &table.bytes)),
        letter: None,
        bytes,
    };
    judge(plain, pillar, bytes, || {
        format!("reading a page of {} bytes{table}", bytes.len())
    })
}

fn fresh_meter<const FAULT: u8>(settings: Settings) -> Result<Machine<FAULT>, u8> {
    let Settings {
        mode,
        threshold,
        over,
        under,
        clock,
    } = settings;
    Machine::fresh(mode, threshold, over, under, clock)
}

fn plain_number<T>(answer: Result<T, u8>) -> u32 {
    answer.err().unwrap_or(0).into()
}

fn plain_letter(answer: plain::Answer) -> Option<char> {
    answer.ok().flatten().map(Letter::as_char)
}

fn pillar_letter(called: pillar::Called) -> Option<char> {
    called.letter.map(pillar::Letter::as_char)
}

fn pillar_number(answer: pillar::Answer) -> u32 {
    answer.err().unwrap_or(0)
}
