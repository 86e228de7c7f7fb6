//! A table of events: its bytes, and the lines that serve for them.

use std::fmt;

/// "lines of code, log, alarm bit, error bit" (02, A8)
pub const LINE: usize = 4;
/// "1 to 64 lines" (02, A8)
pub const MOST_LINES: usize = 64;
/// "255 for no bit" (02, A8)
pub const NO_BIT: u8 = 255;

pub type Line = [u8; LINE];

/// Document 01's events, in the order of their codes.
pub const DOCUMENT_01: [Line; 18] = [
    [1, 1, NO_BIT, NO_BIT],
    [2, 1, NO_BIT, NO_BIT],
    [6, 1, 0, 0],
    [7, 1, 1, 1],
    [8, 1, NO_BIT, NO_BIT],
    [12, 1, 8, 8],
    [13, 1, 9, 9],
    [14, 1, 10, 10],
    [15, 1, 12, 12],
    [16, 1, 11, 11],
    [40, 2, 13, NO_BIT],
    [41, 2, NO_BIT, NO_BIT],
    [42, 2, 13, NO_BIT],
    [43, 2, NO_BIT, NO_BIT],
    [44, 2, 13, NO_BIT],
    [45, 2, NO_BIT, NO_BIT],
    [46, 2, NO_BIT, NO_BIT],
    [68, 3, NO_BIT, NO_BIT],
];

/// Which table serves.
#[derive(Clone, Copy, Debug, PartialEq, Eq)]
pub enum Serving {
    /// No bytes were given.
    BuiltIn,
    /// Those given are no good table: "Without a good table the built-in one
    /// serves" (02, A8).
    BuiltInForBad,
    Own,
}

pub struct EventTable {
    pub bytes: Vec<u8>,
    pub serving: Serving,
    lines: Vec<Line>,
}

impl EventTable {
    pub fn of(bytes: Vec<u8>) -> EventTable {
        let (serving, lines) = if plain::Table::load(&bytes).is_ok() {
            (Serving::Own, bytes.as_chunks().0.to_vec())
        } else if bytes.is_empty() {
            (Serving::BuiltIn, DOCUMENT_01.to_vec())
        } else {
            (Serving::BuiltInForBad, DOCUMENT_01.to_vec())
        };
        EventTable {
            bytes,
            serving,
            lines,
        }
    }

    pub fn built_in() -> EventTable {
        EventTable::of(Vec::new())
    }

    /// The lines that serve.
    pub fn lines(&self) -> &[Line] {
        &self.lines
    }

    /// The line of a code, at its full width.
    pub fn line(&self, code: u32) -> Option<Line> {
        let mut lines = self.lines.iter();
        lines.find(|line| u32::from(line[0]) == code).copied()
    }

    /// Every bit that an event raises.
    pub fn bits(&self) -> u32 {
        let bits = self.lines.iter().flat_map(|line| [line[2], line[3]]);
        bits.fold(0, |all, bit| all | mask(bit))
    }
}

impl fmt::Display for EventTable {
    /// What a report says behind a call: nothing without bytes.
    fn fmt(&self, f: &mut fmt::Formatter) -> fmt::Result {
        if self.bytes.is_empty() {
            return Ok(());
        }
        write!(f, " under the table ")?;
        self.bytes
            .iter()
            .try_for_each(|byte| write!(f, "{byte:02x}"))
    }
}

/// The bit at its place; nothing for [`NO_BIT`].
pub fn mask(bit: u8) -> u32 {
    1_u32.checked_shl(bit.into()).unwrap_or(0)
}

/// "Codes 4, 5, 10, 11, 59–67, 69 and 255 are barred." (02, A8)
pub fn is_barred(code: u8) -> bool {
    matches!(code, 4 | 5 | 10 | 11 | 59..=67 | 69 | 255)
}

#[cfg(test)]
mod tests {
    use super::*;

    #[test]
    fn the_lines_that_serve_are_told() {
        let own = EventTable::of(vec![6, 1, 5, 31, 70, 3, 255, 0]);
        assert_eq!(own.serving, Serving::Own);
        assert_eq!(own.lines(), [[6, 1, 5, 31], [70, 3, 255, 0]]);
        assert_eq!(own.line(70), Some([70, 3, 255, 0]));
        assert_eq!(own.line(256 + 70), None);
        assert_eq!(own.bits(), 1 << 5 | 1 << 31 | 1);
        assert_eq!(own.to_string(), " under the table 0601051f4603ff00");
        let bad = EventTable::of(vec![4, 1, 0, 0]);
        assert_eq!(bad.serving, Serving::BuiltInForBad);
        assert_eq!(bad.lines(), DOCUMENT_01);
        let none = EventTable::built_in();
        assert_eq!(none.serving, Serving::BuiltIn);
        assert_eq!((none.bits(), none.to_string()), (0x3f03, String::new()));
    }
}
