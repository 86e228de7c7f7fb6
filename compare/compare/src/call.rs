//! A call by its kind and numbers, and its 21 bytes in a list.

use pillar::Settings;
use std::fmt;

#[derive(Clone, Copy, Debug)]
pub struct Call {
    pub kind: u32,
    pub numbers: [u32; 5],
}

impl Call {
    /// Adds this call to a list. A kind wider than a byte has no place in one;
    /// it is refused (13) and changes nothing, so the list does without it.
    pub fn append_to(&self, list: &mut Vec<u8>) {
        let Ok(kind) = u8::try_from(self.kind) else {
            return;
        };
        list.push(kind);
        for number in self.numbers {
            list.extend(number.to_be_bytes());
        }
    }
}

impl fmt::Display for Call {
    fn fmt(&self, f: &mut fmt::Formatter) -> fmt::Result {
        let name = match self.kind {
            0 => "fresh",
            1 => "sample",
            2 => "remote disconnect",
            3 => "remote reconnect",
            4 => "manual disconnect",
            5 => "manual reconnect",
            6 => "set mode",
            7 => "set limiter",
            8 => "set clock",
            9 => "event",
            10 => "set alarm filter",
            11 => "set error filter",
            12 => "clear alarms",
            13 => "clear errors",
            14 => "clear log",
            15 => "script",
            16 => "set emergency groups",
            17 => "set emergency profile",
            _ => "unknown",
        };
        write!(f, "kind {} ({name}), numbers {:?}", self.kind, self.numbers)
    }
}

/// Fresh as the first record of a list.
pub fn fresh_record(settings: Settings) -> Call {
    let Settings {
        mode,
        threshold,
        over,
        under,
        clock,
    } = settings;
    Call {
        kind: 0,
        numbers: [mode, threshold as u32, over, under, clock],
    }
}
