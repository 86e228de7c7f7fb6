//! What is measured: each function of the proved core beside plain's. The built-in
//! table serves, which the C interface is given as no bytes each time.

use crate::archive::{self, Settings};
use plain::{Table, three_phase};

/// The proved core first, then plain.
pub type Sides<'a> = [&'a dyn Side; SIDES];
pub const SIDES: usize = 2;

/// One side. A call answers the byte of its letter, 0 for none.
pub trait Side: Sync {
    fn name(&self) -> &'static str;

    fn three_phase_call(&self, page: &mut [u8], kind: u32, numbers: [u32; 6]) -> u8;

    fn three_phase_replay(&self, list: &[u8], page: &mut [u8]);

    fn one_phase_call(&self, page: &mut [u8], kind: u32, numbers: [u32; 5]) -> u8;

    fn one_phase_replay(&self, list: &[u8], page: &mut [u8]);
}

pub struct Proved;

impl Side for Proved {
    fn name(&self) -> &'static str {
        if pillar::STAND_IN {
            return "stand-in";
        }
        "proved"
    }

    fn three_phase_call(&self, page: &mut [u8], kind: u32, numbers: [u32; 6]) -> u8 {
        let called = archive::call(page, pillar::BUILT_IN, kind, numbers);
        assert_eq!(called.answer, 0, "what is measured is accepted");
        called.letter
    }

    fn three_phase_replay(&self, list: &[u8], page: &mut [u8]) {
        let answer = archive::replay(list, pillar::BUILT_IN, page);
        assert_eq!(answer, 0, "what is measured is accepted");
    }

    fn one_phase_call(&self, page: &mut [u8], kind: u32, numbers: [u32; 5]) -> u8 {
        let called = pillar::call(page, pillar::BUILT_IN, kind, numbers);
        called.answer.expect("what is measured is accepted");
        called.letter.map_or(0, |letter| letter.as_char() as u8)
    }

    fn one_phase_replay(&self, list: &[u8], page: &mut [u8]) {
        let answer = pillar::replay(list, pillar::BUILT_IN, page);
        answer.expect("what is measured is accepted");
    }
}

pub struct Plain;

impl Side for Plain {
    fn name(&self) -> &'static str {
        "idiomatic"
    }

    fn three_phase_call(&self, page: &mut [u8], kind: u32, numbers: [u32; 6]) -> u8 {
        let called = three_phase::Meter::call_on_page(page, &Table::BuiltIn, kind, numbers);
        letter(called)
    }

    fn three_phase_replay(&self, list: &[u8], page: &mut [u8]) {
        let answer = three_phase::Meter::replay(list, &Table::BuiltIn, page);
        answer.expect("what is measured is accepted");
    }

    fn one_phase_call(&self, page: &mut [u8], kind: u32, numbers: [u32; 5]) -> u8 {
        letter(plain::Meter::call_on_page(
            page,
            &Table::BuiltIn,
            kind,
            numbers,
        ))
    }

    fn one_phase_replay(&self, list: &[u8], page: &mut [u8]) {
        let answer = plain::Meter::replay(list, &Table::BuiltIn, page);
        answer.expect("what is measured is accepted");
    }
}

fn letter(called: plain::Answer) -> u8 {
    let letter = called.expect("what is measured is accepted");
    letter.map_or(0, |letter| letter.as_char() as u8)
}

/// The page of a fresh three-phase meter, which the proved core writes.
pub fn three_phase_page(settings: Settings) -> Vec<u8> {
    let mut page = vec![0; three_phase::PAGE];
    let answer = archive::fresh(&mut page, settings);
    assert_eq!(answer, 0, "fresh is accepted");
    page
}

/// The page of a fresh one-phase meter.
pub fn one_phase_page(settings: pillar::Settings) -> Vec<u8> {
    let mut page = vec![0; pillar::PAGE];
    pillar::fresh(&mut page, settings).expect("fresh is accepted");
    page
}
