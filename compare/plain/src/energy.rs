//! "Energy of a day, exactly" (02, A11): import and export in watt-hours, with
//! what is left in watt-seconds, and their join.

use crate::refusal;

#[cfg(feature = "faults")]
pub mod fault;
#[cfg(not(feature = "faults"))]
mod fault;

/// "up to 86,400 samples"
pub const SAMPLES: usize = 86_400;

/// "watt-hours and a remainder of watt-seconds below 3,600"
pub const WATT_HOUR: u64 = 3_600;

/// "a join whose whole watt-hours are above 2^53" is refused.
pub const MOST_JOINED: u64 = 1 << 53;

/// Energy of one direction. Any numbers may be put into its fields; a join tests
/// them.
#[derive(Clone, Copy, Debug, Default, PartialEq, Eq)]
pub struct Energy {
    pub watt_hours: u64,
    pub watt_seconds: u64,
}

/// "import and export separately"
#[derive(Clone, Copy, Debug, Default, PartialEq, Eq)]
pub struct Day {
    pub import: Energy,
    pub export: Energy,
}

impl Energy {
    /// What so many watt-seconds are.
    pub fn of_watt_seconds(watt_seconds: u64) -> Energy {
        Energy {
            watt_hours: watt_seconds / WATT_HOUR,
            watt_seconds: watt_seconds % WATT_HOUR,
        }
    }

    /// Of two with remainders below a watt-hour; the watt-hours may be more than are
    /// accepted.
    fn joined<const FAULT: u8>(self, other: Energy) -> (u128, u64) {
        let seconds = self.watt_seconds.saturating_add(other.watt_seconds);
        let carry = match FAULT {
            fault::CARRY_DROPPED => 0,
            _ => u128::from(seconds / WATT_HOUR),
        };
        let hours = u128::from(self.watt_hours) + u128::from(other.watt_hours) + carry;
        let hours = match FAULT {
            fault::HOURS_WRAP => u128::from(hours as u64),
            _ => hours,
        };
        (hours, seconds % WATT_HOUR)
    }
}

impl Day {
    /// The energy of samples of one second each, in watts, export being negative: 25.
    pub fn of(samples: &[i32]) -> Result<Day, u8> {
        Day::of_with::<{ fault::NONE }>(samples)
    }

    /// "Days and berths may be joined, and the joined pair is that of all samples
    /// together": 26 or 27.
    pub fn joined(self, other: Day) -> Result<Day, u8> {
        self.joined_with::<{ fault::NONE }>(other)
    }

    /// The same as [`Day::of`], `FAULT` being a planted blunder.
    pub fn of_with<const FAULT: u8>(samples: &[i32]) -> Result<Day, u8> {
        let most = match FAULT {
            fault::TAKES_ONE_SAMPLE_MORE => SAMPLES + 1,
            fault::TAKES_ONE_SAMPLE_FEWER => SAMPLES - 1,
            _ => SAMPLES,
        };
        if samples.len() > most {
            return Err(refusal::SAMPLE_COUNT);
        }
        let mut import = 0;
        let mut export = 0;
        for &power in samples {
            let watts = u64::from(power.unsigned_abs());
            if power > 0 {
                import += watts;
            } else {
                export += match FAULT {
                    fault::LOWEST_LOST if power == i32::MIN => 0,
                    fault::LOWEST_CUT if power == i32::MIN => watts - 1,
                    _ => watts,
                };
            }
        }
        if FAULT == fault::DIRECTIONS_CANCEL {
            (import, export) = (import.saturating_sub(export), export.saturating_sub(import));
        }
        if FAULT == fault::DIRECTIONS_EXCHANGED {
            (import, export) = (export, import);
        }
        Ok(Day {
            import: Energy::of_watt_seconds(import),
            export: Energy::of_watt_seconds(export),
        })
    }

    /// The same as [`Day::joined`], `FAULT` being a planted blunder.
    pub fn joined_with<const FAULT: u8>(self, other: Day) -> Result<Day, u8> {
        let remainders = [self.import, other.import, self.export, other.export];
        let judged = match FAULT {
            fault::EXPORT_REMAINDERS_TAKEN => &remainders[..2],
            _ => &remainders[..],
        };
        let over = |energy: &Energy| match FAULT {
            fault::REMAINDER_3600_TAKEN => energy.watt_seconds > WATT_HOUR,
            _ => energy.watt_seconds >= WATT_HOUR,
        };
        let remainder = match FAULT {
            fault::OWN_REMAINDERS_TAKEN => over(&other.import) || over(&other.export),
            fault::OTHER_REMAINDERS_TAKEN => over(&self.import) || over(&self.export),
            _ => judged.iter().any(over),
        };
        let (import, import_rest) = self.import.joined::<FAULT>(other.import);
        let (export, export_rest) = self.export.joined::<FAULT>(other.export);
        let whole = match FAULT {
            fault::CARRY_NOT_JUDGED => [
                u128::from(self.import.watt_hours) + u128::from(other.import.watt_hours),
                u128::from(self.export.watt_hours) + u128::from(other.export.watt_hours),
            ],
            fault::ANY_JOINED_EXPORT => [import, import],
            fault::ANY_JOINED_IMPORT => [export, export],
            _ => [import, export],
        };
        let above = |watt_hours: &u128| match FAULT {
            fault::MOST_JOINED_REFUSED => *watt_hours >= u128::from(MOST_JOINED),
            _ => *watt_hours > u128::from(MOST_JOINED),
        };
        let joined = whole.iter().any(above);
        if FAULT == fault::JOINED_BEFORE_REMAINDER && joined {
            return Err(refusal::JOINED_ENERGY);
        }
        if remainder {
            return Err(refusal::REMAINDER);
        }
        if joined {
            return Err(refusal::JOINED_ENERGY);
        }
        Ok(Day {
            import: Energy {
                watt_hours: import as u64,
                watt_seconds: import_rest,
            },
            export: Energy {
                watt_hours: export as u64,
                watt_seconds: export_rest,
            },
        })
    }
}
