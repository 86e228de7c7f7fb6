//! The table, in Markdown: an item, what it costs on each side, and the cost of
//! the first, the proved core, over that of each other.

use crate::item::Item;
use crate::side::{SIDES, Sides};

/// What the costs are counted in, and with how many decimals they are printed.
pub struct Unit {
    pub name: &'static str,
    pub decimals: usize,
}

pub fn print_head(sides: Sides, unit: &Unit) {
    let [proved, others @ ..] = sides.map(|side| side.name());
    let costs = sides.map(|side| format!("{}, {}", side.name(), unit.name));
    let ratios = others.map(|other| format!("{proved} / {other}"));
    print_line("", costs.iter().chain(&ratios));
    println!("|{}", "---|".repeat(1 + costs.len() + ratios.len()));
}

pub fn print_row(item: &Item, costs: [f64; SIDES], unit: &Unit) {
    let [proved, others @ ..] = costs;
    let costs = costs.map(|cost| format!("{cost:.*}", unit.decimals));
    let ratios = others.map(|other| format!("{:.2}", proved / other));
    print_line(&item.name, costs.iter().chain(&ratios));
}

fn print_line<'a>(name: &str, cells: impl Iterator<Item = &'a String>) {
    let cells: String = cells.map(|cell| format!(" {cell} |")).collect();
    println!("| {name} |{cells}");
}
