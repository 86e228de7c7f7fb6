//! A call by its kind and numbers, and its 33 bytes in a list.

use crate::archive::Settings;
use plain::three_phase::NUMBERS;
use std::fmt;

/// What the places of a record hold that no call has a number for.
const UNUSED: [u32; 2] = [0x7777_7777, 0xffff_ffff];

#[derive(Clone, Copy, Debug)]
pub struct Call {
    pub kind: u32,
    pub numbers: [u32; NUMBERS],
}

impl Call {
    pub fn sample(powers: [i32; 3]) -> Call {
        let [l1, l2, l3] = powers.map(|power| power as u32);
        Call {
            kind: 1,
            numbers: [l1, l2, l3, 0, 0, 0],
        }
    }

    /// A call with one number.
    pub fn of(kind: u32, number: u32) -> Call {
        Call {
            kind,
            numbers: [number, 0, 0, 0, 0, 0],
        }
    }

    /// The three powers of a sample.
    pub fn powers(&self) -> [i32; 3] {
        let [l1, l2, l3, ..] = self.numbers;
        [l1, l2, l3].map(|power| power as i32)
    }

    /// The four thresholds of a limiter setting.
    pub fn thresholds(&self) -> [i32; 4] {
        let [l1, l2, l3, sum, ..] = self.numbers;
        [l1, l2, l3, sum].map(|threshold| threshold as i32)
    }

    /// Adds this call to a list. A kind wider than a byte has no place in one;
    /// it is refused (13) and changes nothing, so the list does without it.
    pub fn append_to(&self, list: &mut Vec<u8>) {
        if let Ok(kind) = u8::try_from(self.kind) {
            append_record(list, kind, self.numbers.into_iter().chain(UNUSED));
        }
    }
}

/// Fresh as the first record of a list.
pub fn append_fresh(settings: Settings, list: &mut Vec<u8>) {
    let Settings {
        mode,
        thresholds,
        over,
        under,
        clock,
    } = settings;
    let [l1, l2, l3, sum] = thresholds.map(|threshold| threshold as u32);
    append_record(list, 0, [mode, l1, l2, l3, sum, over, under, clock]);
}

fn append_record(list: &mut Vec<u8>, kind: u8, numbers: impl IntoIterator<Item = u32>) {
    list.push(kind);
    for number in numbers {
        list.extend(number.to_be_bytes());
    }
}

/// What a kind is called.
pub fn kind_name(kind: u32) -> &'static str {
    match kind {
        0 => "fresh",
        1 => "sample",
        2 => "remote disconnect",
        3 => "remote reconnect",
        4 => "manual disconnect",
        5 => "manual reconnect",
        6 => "set mode",
        7 => "set limiter",
        8 => "set clock",
        9 => "event",
        10 => "set alarm filter",
        11 => "set error filter",
        12 => "clear alarms",
        13 => "clear errors",
        14 => "clear log",
        15 => "script",
        _ => "unknown",
    }
}

impl fmt::Display for Call {
    fn fmt(&self, f: &mut fmt::Formatter) -> fmt::Result {
        let Call { kind, numbers } = self;
        let name = kind_name(*kind);
        match kind {
            1 => write!(f, "{name}, powers {:?}", self.powers()),
            7 => {
                let [.., over, under] = numbers;
                let thresholds = self.thresholds();
                write!(
                    f,
                    "{name}, thresholds {thresholds:?}, Over {over}, Under {under}"
                )
            }
            _ => write!(f, "kind {kind} ({name}), number {}", numbers[0]),
        }
    }
}

#[cfg(test)]
mod tests {
    use super::*;

    #[test]
    fn records_have_33_bytes() {
        let mut list = Vec::new();
        append_fresh(
            Settings {
                mode: 5,
                thresholds: [1, 2, 3, -1],
                over: 6,
                under: 7,
                clock: 8,
            },
            &mut list,
        );
        assert_eq!(list.len(), 33);
        assert_eq!(list[..9], [0, 0, 0, 0, 5, 0, 0, 0, 1]);
        assert_eq!(list[17..21], [0xff; 4]);
        assert_eq!(list[29..], [0, 0, 0, 8]);
        Call::sample([-1, 2, 3]).append_to(&mut list);
        assert_eq!(list.len(), 66);
        assert_eq!(list[33..42], [1, 0xff, 0xff, 0xff, 0xff, 0, 0, 0, 2]);
        Call::of(256, 0).append_to(&mut list);
        assert_eq!(list.len(), 66);
    }
}
