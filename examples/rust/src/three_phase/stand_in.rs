//! Plain behind the proved core's functions, so that the programs can run
//! where `libpillar.a` isn't built. It proves nothing about the core.

use super::Settings;
use plain::Table;
use plain::three_phase::Meter;

pub fn fresh(page: &mut [u8], settings: Settings) -> u32 {
    let Settings {
        mode,
        thresholds,
        over,
        under,
        clock,
    } = settings;
    let meter = Meter::fresh(mode, thresholds, over, under, clock);
    number(meter.and_then(|meter| meter.write_page(&Table::BuiltIn, page)))
}

/// The number, and the byte that stands for the letter.
pub fn call(page: &mut [u8], table: &[u8], kind: u32, numbers: [u32; 6]) -> (u32, u8) {
    let answer = Meter::call_on_page(page, &serving(table), kind, numbers);
    let letter = answer.ok().flatten();
    let byte = letter.map_or(0, |letter| letter.as_char() as u8);
    (number(answer), byte)
}

pub fn replay(records: &[u8], table: &[u8], page: &mut [u8]) -> u32 {
    number(Meter::replay(records, &serving(table), page))
}

pub fn check(page: &[u8], table: &[u8]) -> u32 {
    number(Meter::read_page(page, &serving(table)))
}

/// "Without a good table the built-in one serves." (02, A8)
fn serving(table: &[u8]) -> Table {
    Table::load(table).unwrap_or_default()
}

fn number<T>(answer: Result<T, u8>) -> u32 {
    answer.err().unwrap_or(0).into()
}
