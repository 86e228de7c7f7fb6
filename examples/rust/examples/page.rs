//! Runs a list from standard input on the proved core and writes the page that
//! it leaves, or says with which number the list is refused. The events are those
//! of the built-in table, or of the one in the file that is named: hexadecimal
//! digits, as `tools/table` writes them.

mod common;

use common::{Outcome, Output, failed, refused};
use pillar::{BUILT_IN, PAGE};
use std::ffi::OsStr;
use std::io::Write;
use std::process::ExitCode;

fn main() -> ExitCode {
    common::run(page)
}

fn page(output: &mut Output) -> Outcome {
    let table = match std::env::args_os().nth(1) {
        Some(path) => own_table(&path)?,
        None => BUILT_IN.to_vec(),
    };
    let list = common::input()?;
    let mut page = [0; PAGE];
    pillar::replay(&list, &table, &mut page).map_err(refused)?;
    output.write_all(&page)?;
    Ok(())
}

fn own_table(path: &OsStr) -> Outcome<Vec<u8>> {
    let wrong = "the table is no whole number of bytes in hexadecimal digits";
    let Some(table) = common::bytes_of(&common::text_of(path)?) else {
        return failed(wrong);
    };
    match pillar::table(&table) {
        Ok(()) => Ok(table),
        Err(refusal) => failed(format!("the table is refused with {refusal}")),
    }
}
