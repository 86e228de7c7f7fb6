//! The two sides, held at the same meter and table: plain as its record and the
//! table that serves, the proved core as its page and the table's bytes. Whatever is
//! done is done to both and compared at once.

use crate::archive::{self, Called, Settings};
use crate::call::Call;
use crate::case::Seen;
use crate::counts::Counts;
use crate::difference::{Difference, Outcome, judge};
use crate::table::EventTable;
use plain::Table;
use plain::three_phase::{PAGE, ThreePhase};

/// What buffers hold before they are written.
const FILL: u8 = 0x5a;

pub type Compared<T> = Result<T, Box<Difference>>;

pub struct Sides<const FAULT: u8> {
    meter: ThreePhase<FAULT>,
    pub page: [u8; PAGE],
    /// The page's table, and what serves for it in plain.
    pub table: EventTable,
    serving: Table,
    pub counts: Counts,
    /// What led to this meter, for a report.
    steps: Vec<Step>,
}

#[derive(Clone, Copy)]
enum Step {
    Fresh(Settings),
    /// A page was taken over, whose bytes the report of the next call shows.
    Patched,
    Call(Call),
}

impl<const FAULT: u8> Sides<FAULT> {
    pub fn new() -> Compared<Self> {
        let mut sides = Sides {
            meter: ThreePhase::default(),
            page: [0; PAGE],
            table: EventTable::built_in(),
            serving: Table::BuiltIn,
            counts: Counts::default(),
            steps: Vec::new(),
        };
        let settings = Settings {
            mode: 0,
            thresholds: [0; 4],
            over: 1,
            under: 1,
            clock: 0,
        };
        sides.fresh(settings, PAGE)?;
        Ok(sides)
    }

    /// The table of the histories from here on.
    pub fn take_table(&mut self, table: EventTable) {
        self.serving = serving(&table);
        self.table = table;
    }

    /// A fresh meter, its page written into a buffer of `length` bytes. Answers
    /// whether it was accepted; only then do both sides take it over.
    pub fn fresh(&mut self, settings: Settings, length: usize) -> Compared<bool> {
        let mut ours = vec![FILL; length];
        let mut theirs = ours.clone();
        let meter = fresh_meter(settings);
        let written = meter.and_then(|meter| meter.write_page(&self.serving, &mut ours));
        let answer = number(written);
        let their_answer = archive::fresh(&mut theirs, settings);
        self.steps.clear();
        judge(
            without_letter(answer, &ours),
            without_letter(their_answer, &theirs),
            &[],
            || format!("fresh {settings:?} into {length} bytes"),
        )?;
        self.counts.count_answer(answer);
        let (0, Ok(meter), Some(page)) = (answer, meter, theirs.first_chunk()) else {
            return Ok(false);
        };
        self.meter = meter;
        self.page = *page;
        self.steps.push(Step::Fresh(settings));
        Ok(true)
    }

    /// One call on both sides.
    pub fn call(&mut self, call: Call) -> Compared<()> {
        let before = self.page;
        let Call { kind, numbers } = call;
        let ours = self.meter.command(&self.serving, kind, numbers);
        let theirs = archive::call(&mut self.page, &self.table.bytes, kind, numbers);
        let mut page = [FILL; PAGE];
        let written = number(self.meter.write_page(&self.serving, &mut page));
        let plain = Outcome {
            answer: number(ours).max(written),
            letter: letter(ours),
            bytes: &page,
        };
        self.counts.calls += 1;
        judge(plain, outcome(theirs, &self.page), &before, || {
            format!("{call}{}", self.table)
        })?;
        self.steps.push(Step::Call(call));
        self.counts.count_call(&Seen {
            call,
            answer: theirs.answer,
            letter: theirs.letter,
            before: &before,
            after: &self.page,
            table: &self.table,
        });
        Ok(())
    }

    /// Both readers judge these bytes, and then both run a call on them. Answers
    /// whether the reader accepts them.
    pub fn inspect(&mut self, bytes: &[u8], call: Call) -> Compared<bool> {
        let answer = inspect::<FAULT>(&self.serving, &self.table, bytes, call)?;
        self.counts.count_answer(answer);
        Ok(answer == 0)
    }

    /// The same under a table that need not be the page's own.
    pub fn inspect_under(&mut self, table: &EventTable, call: Call) -> Compared<()> {
        let answer = inspect::<FAULT>(&serving(table), table, &self.page, call)?;
        self.counts.count_answer(answer);
        Ok(())
    }

    /// Goes on from this page if the reader accepts it; answers whether.
    pub fn adopt(&mut self, page: [u8; PAGE], call: Call) -> Compared<bool> {
        if !self.inspect(&page, call)? {
            return Ok(false);
        }
        if let Ok(meter) = ThreePhase::read_page(&page, &self.serving) {
            self.meter = meter;
            self.page = page;
            self.steps = vec![Step::Patched];
        }
        Ok(true)
    }

    /// A whole list, its page written into a buffer of `length` bytes. `page` is the
    /// one that the calls gave one by one, where it is known.
    pub fn replay(&mut self, list: &[u8], length: usize, page: Option<&[u8]>) -> Compared<()> {
        let mut ours = vec![FILL; length];
        let mut theirs = ours.clone();
        let replayed = ThreePhase::<FAULT>::replay(list, &self.serving, &mut ours);
        let answer = number(replayed);
        let their_answer = archive::replay(list, &self.table.bytes, &mut theirs);
        let what = || {
            let (bytes, table) = (list.len(), &self.table);
            format!("replay of a list of {bytes} bytes into {length} bytes{table}")
        };
        self.counts.lists += 1;
        judge(
            without_letter(answer, &ours),
            without_letter(their_answer, &theirs),
            list,
            what,
        )?;
        self.counts.count_replay_answer(answer);
        let Some(page) = page else {
            return Ok(());
        };
        judge(
            without_letter(0, page),
            without_letter(their_answer, &theirs[..length.min(PAGE)]),
            list,
            || format!("{} against its calls one by one", what()),
        )
    }

    /// What led to this meter, one line each.
    pub fn history(&self) -> Vec<String> {
        let shown = |step: &Step| match step {
            Step::Fresh(settings) => format!("fresh {settings:?}"),
            Step::Patched => String::from("a page taken over"),
            Step::Call(call) => call.to_string(),
        };
        self.steps.iter().map(shown).collect()
    }
}

/// Both readers judge these bytes under a table, and then both run a call on them.
/// Answers the readers' answer.
fn inspect<const FAULT: u8>(
    serving: &Table,
    table: &EventTable,
    bytes: &[u8],
    call: Call,
) -> Compared<u32> {
    let answer = number(ThreePhase::<FAULT>::read_page(bytes, serving));
    let their_answer = archive::check(bytes, &table.bytes);
    judge(
        without_letter(answer, bytes),
        without_letter(their_answer, bytes),
        bytes,
        || format!("reading a page of {} bytes{table}", bytes.len()),
    )?;
    let Call { kind, numbers } = call;
    let mut ours = bytes.to_vec();
    let mut theirs = bytes.to_vec();
    let called = ThreePhase::<FAULT>::call_on_page(&mut ours, serving, kind, numbers);
    let their_call = archive::call(&mut theirs, &table.bytes, kind, numbers);
    let plain = Outcome {
        answer: number(called),
        letter: letter(called),
        bytes: &ours,
    };
    let what = || format!("{call} on a page of {} bytes{table}", bytes.len());
    judge(plain, outcome(their_call, &theirs), bytes, what)?;
    if their_call.answer != 0 {
        let untouched = without_letter(their_call.answer, bytes);
        judge(untouched, outcome(their_call, &theirs), bytes, || {
            format!("{}, which is refused", what())
        })?;
    }
    Ok(answer)
}

/// "Without a good table the built-in one serves." (02, A8)
fn serving(table: &EventTable) -> Table {
    Table::load(&table.bytes).unwrap_or_default()
}

fn fresh_meter<const FAULT: u8>(settings: Settings) -> Result<ThreePhase<FAULT>, u8> {
    let Settings {
        mode,
        thresholds,
        over,
        under,
        clock,
    } = settings;
    ThreePhase::fresh(mode, thresholds, over, under, clock)
}

fn without_letter(answer: u32, bytes: &[u8]) -> Outcome<'_> {
    Outcome {
        answer,
        letter: 0,
        bytes,
    }
}

fn outcome(called: Called, bytes: &[u8]) -> Outcome<'_> {
    Outcome {
        answer: called.answer,
        letter: called.letter,
        bytes,
    }
}

fn number<T>(answer: Result<T, u8>) -> u32 {
    answer.err().unwrap_or(0).into()
}

/// The byte by which the C interface stores the letter.
fn letter(answer: plain::Answer) -> u8 {
    let letter = answer.ok().flatten();
    letter.map_or(0, |letter| letter.as_char() as u8)
}
