//! The event tables, as each core takes them: they are loaded before anything is
//! measured.

#[cfg(not(feature = "stand-in"))]
use crate::measure::{self, Index};
use pillar::BUILT_IN;
use plain::{NO_BIT, Table};

pub struct EventTable {
    pub bytes: Vec<u8>,
    /// As plain has it.
    pub plain: Table,
    /// As the proved core has it.
    #[cfg(not(feature = "stand-in"))]
    pub index: Index,
}

impl EventTable {
    pub fn built_in() -> EventTable {
        EventTable::of(BUILT_IN.to_vec(), Table::BuiltIn)
    }

    /// An own table of so many lines, their codes rising by 1 from the first on.
    /// The logs take turns: a standard event raises a bit in both registers, a fraud
    /// an alarm bit, a disconnect event none, as built-in ones do.
    pub fn own(first: u8, lines: u8) -> EventTable {
        let line = |place: u8| {
            let code = first + place;
            let bit = place / 3;
            match place % 3 {
                0 => [code, 1, bit, bit],
                1 => [code, 2, 31 - bit, NO_BIT],
                _ => [code, 3, NO_BIT, NO_BIT],
            }
        };
        let bytes: Vec<u8> = (0..lines).flat_map(line).collect();
        let loaded = Table::load(&bytes).expect("the table is good");
        EventTable::of(bytes, loaded)
    }

    fn of(bytes: Vec<u8>, plain: Table) -> EventTable {
        EventTable {
            #[cfg(not(feature = "stand-in"))]
            index: measure::index_of(&bytes),
            bytes,
            plain,
        }
    }
}
