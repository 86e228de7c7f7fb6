//! The two sides at the same page. Whatever is done is done to both and compared at
//! once.

use crate::apdu::{ACTION, ATTRIBUTES, GET, METHODS, Row, SET};
use crate::counts::{Counts, case, refused, result};
use crate::{field, form};
use pillar::PAGE;
use plain::{Letter, Machine, Table};
use std::fmt;

pub type Compared<T> = Result<T, Box<Difference>>;

pub struct Sides<const FAULT: u8> {
    pub page: [u8; PAGE],
    /// The bytes of the page's table, and what serves for them in plain.
    table: Vec<u8>,
    serving: Table,
    pub counts: Counts,
}

/// What one side has answered and left.
#[derive(Debug, PartialEq, Eq)]
struct Outcome {
    number: u32,
    length: usize,
    letter: Option<char>,
    buffer: Vec<u8>,
    page: Vec<u8>,
}

#[derive(Debug)]
pub struct Difference {
    what: String,
    page: Vec<u8>,
    plain: Outcome,
    pillar: Outcome,
}

impl<const FAULT: u8> Sides<FAULT> {
    /// Both sides at this page, under the built-in table.
    pub fn new(page: [u8; PAGE]) -> Self {
        Sides {
            page,
            table: Vec::new(),
            serving: Table::BuiltIn,
            counts: Counts::default(),
        }
    }

    /// Both sides at this page, which belongs to this table.
    pub fn begin(&mut self, page: [u8; PAGE], table: Vec<u8>) {
        self.page = page;
        self.serving = serving(&table);
        self.table = table;
    }

    pub fn table(&self) -> &[u8] {
        &self.table
    }

    /// One call on both sides' page.
    pub fn call(&mut self, kind: u32, numbers: [u32; 5]) -> Compared<()> {
        let mut plain = self.page.to_vec();
        let mut pillar = self.page.to_vec();
        let ours = Machine::<FAULT>::call_on_page(&mut plain, &self.serving, kind, numbers);
        let theirs = pillar::call(&mut pillar, &self.table, kind, numbers);
        let plain = Outcome {
            number: ours.err().unwrap_or(0).into(),
            length: 0,
            letter: ours.ok().flatten().map(Letter::as_char),
            buffer: Vec::new(),
            page: plain,
        };
        let pillar = Outcome {
            number: theirs.answer.err().unwrap_or(0),
            length: 0,
            letter: theirs.letter.map(pillar::Letter::as_char),
            buffer: Vec::new(),
            page: pillar,
        };
        let what = || format!("call of kind {kind}, numbers {numbers:?}");
        let pillar = judge(plain, pillar, &self.page, what)?;
        self.counts.calls += 1;
        self.page.copy_from_slice(&pillar.page);
        Ok(())
    }

    /// One request on both sides' page, answered into `size` bytes; both go on from
    /// the page that it leaves.
    pub fn request(&mut self, request: &[u8], size: usize) -> Compared<()> {
        let page = self.page;
        let after = self.request_on(&page, request, size)?;
        self.page.copy_from_slice(&after);
        Ok(())
    }

    /// One request on this page, damaged or not, answered into `size` bytes. The
    /// page that it leaves.
    pub fn request_on(&mut self, page: &[u8], request: &[u8], size: usize) -> Compared<Vec<u8>> {
        let outcome = self.compare(page, &self.table, &self.serving, request, size)?;
        self.counts.requests += 1;
        self.count(request, page, size, &outcome);
        Ok(outcome.page)
    }

    /// One request on both sides' page under another table than its own.
    pub fn request_under(&mut self, table: &[u8], request: &[u8]) -> Compared<()> {
        let outcome = self.compare(
            &self.page,
            table,
            &serving(table),
            request,
            pillar::ANSWER_BUFFER,
        )?;
        self.counts.requests += 1;
        match outcome.number {
            0 => self.counts.count(case::TAKEN_UNDER_OTHER_TABLE),
            11 => self.counts.count(case::REFUSED_UNDER_OTHER_TABLE),
            _ => {}
        }
        Ok(())
    }

    fn compare(
        &self,
        page: &[u8],
        table: &[u8],
        serving: &Table,
        request: &[u8],
        size: usize,
    ) -> Compared<Outcome> {
        let mut plain = fill(page, size);
        let mut pillar = fill(page, size);
        let ours =
            Machine::<FAULT>::request_on_page(&mut plain.page, serving, request, &mut plain.buffer);
        match ours {
            Ok(answered) => {
                plain.length = answered.length;
                plain.letter = answered.letter.map(Letter::as_char);
            }
            Err(refusal) => plain.number = refusal.into(),
        }
        let theirs = pillar::request(&mut pillar.page, table, request, &mut pillar.buffer);
        pillar.number = theirs.answer.err().unwrap_or(0);
        pillar.length = theirs.length;
        pillar.letter = theirs.letter.map(pillar::Letter::as_char);

        let what = || {
            let (length, form) = (page.len(), form::of(request));
            let request = Hex(request);
            let table = match table {
                [] => String::from("the built-in table"),
                table => format!("table {}", Hex(table)),
            };
            format!(
                "request {request} ({form}) on a page of {length} bytes under {table}, into \
                 {size} bytes"
            )
        };
        judge(plain, pillar, page, what)
    }

    fn count(&mut self, request: &[u8], page: &[u8], size: usize, outcome: &Outcome) {
        let form = form::of(request);
        match outcome.number {
            0 => self.counts.count(format!("answered: {form}")),
            20 => return self.counts.count(format!("20: {form}")),
            number => return self.counts.count(refused(number, form::is_whole(request))),
        }
        let service = request[0];
        let (rows, service_name): (&[Row], _) = match service {
            GET => (&ATTRIBUTES, "GET"),
            SET => (&ATTRIBUTES, "SET"),
            _ => (&METHODS, "ACTION"),
        };
        let row = rows.iter().find(|row| row.bytes == request[3..12]);
        let answer = &outcome.buffer;
        let met = match (service, answer[3]) {
            (GET, 0) => "data",
            (GET, _) => result_name(answer[4]),
            (_, number) => result_name(number),
        };
        let name = row.map_or("of anything else", |row| row.name);
        self.counts.count(result(service_name, name, met));
        if service == ACTION && met == "success" {
            let letter = outcome.letter.map_or("none".into(), String::from);
            let what = format!("ACTION with success, letter {letter}");
            self.counts.count(what);
        }
        for case in cases(request, row, met, page, &outcome.page) {
            self.counts.count(case);
        }
        if size == pillar::ANSWER_BUFFER {
            self.counts.count(case::LEAST_BUFFER);
        }
        match self.serving {
            Table::Own(_) if pillar::check(page, pillar::BUILT_IN).is_err() => {
                self.counts.count(case::OWN_CODE);
            }
            Table::Own(_) => self.counts.count(case::OWN_TABLE),
            Table::BuiltIn if !self.table.is_empty() => self.counts.count(case::BAD_TABLE),
            Table::BuiltIn => {}
        }
    }
}

/// The cases of an answered request, by the page before and after it.
fn cases(
    request: &[u8],
    row: Option<&Row>,
    met: &str,
    before: &[u8],
    after: &[u8],
) -> Vec<&'static str> {
    let mut cases = Vec::new();
    if form::has_wide_boolean(request) {
        cases.push(case::WIDE_BOOLEAN);
    }
    let name = row.map_or("", |row| row.name);
    let active = before[field::STATE] == field::ACTIVE;
    let changed = |place: usize| {
        let [before, after] = [before, after].map(|page| field::get(page, place));
        before != after && after != 0
    };
    let normal = field::get(before, field::THRESHOLD);
    let closed = before[field::SWITCH] != field::CONNECTED;
    match (request[0], name, met) {
        (GET, "normal threshold", _)
            if active && normal != field::get(before, field::PROFILE_THRESHOLD) =>
        {
            cases.push(case::THRESHOLD_UNDER_PROFILE);
        }
        (GET, "output state", _) => {
            cases.push(case::OUTPUT[usize::from(before[field::SWITCH])]);
        }
        (SET, "normal threshold" | "over duration" | "under duration", "success") if active => {
            cases.push(case::LIMITER_UNDER_PROFILE);
        }
        (SET, "output state" | "control state", "type-unmatched") => {
            cases.push(case::UNMATCHED_UNWRITABLE);
        }
        (SET, "errors", "success") if changed(field::ERRORS) => cases.push(case::CLEARS_SOME),
        (SET, "alarms", "success") if changed(field::ALARMS) => cases.push(case::CLEARS_SOME),
        (SET, "control mode", "success") if closed && after[field::SWITCH] == field::CONNECTED => {
            cases.push(case::CLOSES);
        }
        (ACTION, _, "object-undefined") if request.get(13) != Some(&0x0f) => {
            cases.push(case::UNTYPED_UNDEFINED);
        }
        (ACTION, _, "type-unmatched") if before[field::MODE] == 0 => {
            cases.push(case::UNMATCHED_IN_MODE_0);
        }
        _ => {}
    }
    cases
}

/// "Without a good table the built-in one serves." (02, A8)
fn serving(table: &[u8]) -> Table {
    Table::load(table).unwrap_or_default()
}

fn result_name(number: u8) -> &'static str {
    match number {
        0 => "success",
        3 => "read-write-denied",
        4 => "object-undefined",
        12 => "type-unmatched",
        _ => "a result of no row",
    }
}

/// A side before the request: its page, and a buffer in which each byte differs from
/// its neighbours.
fn fill(page: &[u8], size: usize) -> Outcome {
    Outcome {
        number: 0,
        length: 0,
        letter: None,
        buffer: (0..size).map(|place| place as u8 ^ 0x5a).collect(),
        page: page.to_vec(),
    }
}

/// Both sides must have answered and left the same; that is handed back.
fn judge(
    plain: Outcome,
    pillar: Outcome,
    page: &[u8],
    what: impl FnOnce() -> String,
) -> Compared<Outcome> {
    if plain == pillar {
        return Ok(pillar);
    }
    Err(Box::new(Difference {
        what: what(),
        page: page.to_vec(),
        plain,
        pillar,
    }))
}

impl Difference {
    /// One line, without the page.
    pub fn brief(&self) -> String {
        let Difference {
            what,
            plain,
            pillar,
            ..
        } = self;
        let mut differ = Vec::new();
        let mut compare = |name: &str, plain: String, pillar: String| {
            if plain != pillar {
                differ.push(format!("{name}: plain {plain}, pillar {pillar}"));
            }
        };
        let numbers = [plain, pillar].map(|side| side.number.to_string());
        let lengths = [plain, pillar].map(|side| side.length.to_string());
        let letters = [plain, pillar].map(|side| side.letter.map_or("none".into(), String::from));
        let buffers = [plain, pillar].map(|side| Hex(&side.buffer).to_string());
        for (name, [plain, pillar]) in [
            ("number", numbers),
            ("length", lengths),
            ("letter", letters),
            ("buffer", buffers),
        ] {
            compare(name, plain, pillar);
        }
        let mut bytes = plain.page.iter().zip(&pillar.page);
        if let Some(place) = bytes.position(|(plain, pillar)| plain != pillar) {
            let [plain, pillar] = [plain, pillar].map(|side| side.page[place].to_string());
            let name = format!("page, byte {place} ({})", field::name(place));
            compare(&name, plain, pillar);
        }
        format!("{what}; {}", differ.join("; "))
    }
}

impl fmt::Display for Difference {
    fn fmt(&self, f: &mut fmt::Formatter) -> fmt::Result {
        write!(f, "  {}\n  given the page:", self.brief())?;
        for row in self.page.chunks(32) {
            write!(f, "\n    {}", Hex(row))?;
        }
        Ok(())
    }
}

/// Bytes as hexadecimal digits.
struct Hex<'a>(&'a [u8]);

impl fmt::Display for Hex<'_> {
    fn fmt(&self, f: &mut fmt::Formatter) -> fmt::Result {
        self.0.iter().try_for_each(|byte| write!(f, "{byte:02x}"))
    }
}
