//! What the compiled calls answer on small floors, case by case, every field by
//! its name; and that a floor that isn't well formed is refused by 30 wherever
//! it is handed in.

mod anywhere;
mod barge;
mod full;
mod hoppers;
mod layouts;
mod lists;
mod malformed;
mod pages;
mod plans;
mod small;
mod windows;

use ceromby::{tile, Canister, Floor, Refusal, Report, Settings, Side};

/// Document 01's small floors: "U 100, l 30, r 10, v 20".
pub fn settings(columns: u8, rows: u8, hoppers: u64, sources: u64) -> Settings {
    Settings {
        columns,
        rows,
        hoppers,
        sources,
        width: 100,
        length: 30,
        gap: 10,
        travel: 20,
    }
}

pub fn fresh(columns: u8, rows: u8, hoppers: u64, sources: u64) -> Floor {
    Floor::fresh(settings(columns, rows, hoppers, sources)).expect("a floor")
}

/// W 2, hopper 1, fill tile 0.
pub fn two() -> Floor {
    fresh(2, 1, tile(1), tile(0))
}

/// The same with one canister on tile 0.
pub fn two_with(number: u32, a: u16, b: u16) -> Result<Floor, Refusal> {
    let mut floor = two();
    floor.book(0, canister(number, a, b))?;
    Ok(floor)
}

pub fn canister(number: u32, a: u16, b: u16) -> Canister {
    Canister::new(number, a, b)
}

pub fn rounds(floor: &mut Floor, count: u32) -> Result<(), Refusal> {
    (0..count).try_for_each(|_| floor.round().map(drop))
}

pub fn distances(floor: &Floor) -> Vec<Option<u8>> {
    floor.tiles().map(|(_, tile)| tile.distance()).collect()
}

pub fn arrows(floor: &Floor) -> Vec<Option<Side>> {
    floor.tiles().map(|(_, tile)| tile.arrow()).collect()
}

/// Each hopper with what it took in.
pub fn deliveries(report: &Report) -> Vec<(u32, Vec<u32>)> {
    let each = report.deliveries();
    each.map(|(hopper, numbers)| (hopper, numbers.to_vec()))
        .collect()
}
