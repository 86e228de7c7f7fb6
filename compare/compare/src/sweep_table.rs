//! The fixed sweeps over tables of events.

use crate::call::Call;
use crate::draw_table::LONGEST;
use crate::field;
use crate::random::Random;
use crate::sides::{Compared, Sides};
use crate::table::{EventTable, LINE, Line, MOST_LINES, NO_BIT, is_barred};
use pillar::{PAGE, Settings};

/// Every length, every value at each byte of a line, every pair of codes, two faults
/// in every two of three lines; then every code in each log under several tables.
pub fn sweep_tables<const FAULT: u8>(
    sides: &mut Sides<FAULT>,
    random: &mut Random,
) -> Compared<()> {
    sweep_lengths(sides, random)?;
    sweep_values(sides)?;
    sweep_pairs(sides)?;
    sweep_faults(sides)?;
    sweep_codes(sides)
}

/// As many lines as there are codes that a table may have.
fn every_code() -> Vec<Line> {
    let codes = (0..=255).filter(|&code| !is_barred(code));
    codes.map(|code| [code, 3, 31, NO_BIT]).collect()
}

fn sweep_lengths<const FAULT: u8>(sides: &mut Sides<FAULT>, random: &mut Random) -> Compared<()> {
    let lines = every_code();
    for length in 0..=LONGEST {
        sides.judge_table(&lines.as_flattened()[..length])?;
        // 17 comes before 18 and before 19.
        sides.judge_table(&vec![4; length])?;
        let no_log = lines.iter().map(|line| [line[0], 0, 31, NO_BIT]);
        let no_log: Vec<_> = no_log.collect();
        sides.judge_table(&no_log.as_flattened()[..length])?;
        let any: Vec<_> = (0..length).map(|_| random.byte()).collect();
        sides.judge_table(&any)?;
    }
    Ok(())
}

/// In a line alone, between two others, and in the last of the most.
fn sweep_values<const FAULT: u8>(sides: &mut Sides<FAULT>) -> Compared<()> {
    let alone = vec![[70, 2, 13, NO_BIT]];
    let between = vec![[1, 1, 0, 0], [70, 2, 13, NO_BIT], [254, 3, NO_BIT, 31]];
    let last = every_code()[..MOST_LINES].to_vec();
    for (lines, place) in [(alone, 0), (between, 1), (last, MOST_LINES - 1)] {
        for (byte, value) in (0..LINE).flat_map(|byte| (0..=255).map(move |value| (byte, value))) {
            let mut lines = lines.clone();
            lines[place][byte] = value;
            sides.judge_table(lines.as_flattened())?;
        }
    }
    Ok(())
}

fn sweep_pairs<const FAULT: u8>(sides: &mut Sides<FAULT>) -> Compared<()> {
    for (first, second) in (0..=255).flat_map(|first| (0..=255).map(move |second| (first, second)))
    {
        let lines = [[first, 1, 0, NO_BIT], [second, 2, NO_BIT, 31]];
        sides.judge_table(lines.as_flattened())?;
    }
    Ok(())
}

/// Each two faults, in one line or in two: which decides.
fn sweep_faults<const FAULT: u8>(sides: &mut Sides<FAULT>) -> Compared<()> {
    const FAULTS: [(usize, u8); 10] = [
        (0, 4),
        (0, 69),
        (0, 255),
        (0, 0),
        (1, 0),
        (1, 4),
        (2, 32),
        (2, 254),
        (3, 32),
        (3, 254),
    ];
    let good = [[9, 1, 0, 0], [40, 2, 1, 1], [70, 3, 2, 2]];
    for (line, other) in (0..3).flat_map(|line| (0..3).map(move |other| (line, other))) {
        for (byte, value) in FAULTS {
            for (other_byte, other_value) in FAULTS {
                let mut lines = good;
                lines[line][byte] = value;
                lines[other][other_byte] = other_value;
                sides.judge_table(lines.as_flattened())?;
                let cut = lines.as_flattened().len() - 1;
                sides.judge_table(&lines.as_flattened()[..cut])?;
            }
        }
    }
    Ok(())
}

/// A line of each code in each log.
fn sweep_codes<const FAULT: u8>(sides: &mut Sides<FAULT>) -> Compared<()> {
    let every = every_code();
    let tables = [
        vec![],
        vec![[68, 3, NO_BIT, NO_BIT]],
        vec![[68, 1, NO_BIT, NO_BIT]],
        vec![[0, 1, 0, 0], [6, 2, 5, 5], [254, 3, 31, 31]],
        every[..MOST_LINES].to_vec(),
        every[every.len() - MOST_LINES..].to_vec(),
        // No good one.
        vec![[69, 1, 0, 0]],
    ];
    for lines in tables {
        let table = EventTable::of(lines.as_flattened().to_vec());
        for log in 0..3 {
            fresh_with_line(sides, log)?;
            let mut page = sides.page;
            for code in 0..=255 {
                page[field::line(log, 0) + 4] = code;
                sides.inspect_under(&table, &page, CLEAR_NOTHING)?;
            }
        }
    }
    Ok(())
}

const CLEAR_NOTHING: Call = Call {
    kind: 12,
    numbers: [0; 5],
};

/// A fresh meter with one line in a log.
fn fresh_with_line<const FAULT: u8>(sides: &mut Sides<FAULT>, log: usize) -> Compared<()> {
    let settings = Settings {
        mode: 5,
        threshold: 3000,
        over: 2,
        under: 3,
        clock: 1000,
    };
    sides.fresh(settings, PAGE)?;
    sides.call(Call {
        kind: 14,
        numbers: [log as u32 + 1, 0, 0, 0, 0],
    })
}
