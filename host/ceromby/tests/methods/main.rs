//! What a program does with the methods, and the refusals that it meets.

mod barge;
mod floor;
mod images;
mod plan;
mod shown;
mod side_by_side;
mod throughput;
mod with_raw;

use ceromby::{tile, Canister, Floor, Settings};

/// Document 01's first trial: two tiles, the hopper in the east.
pub const SETTINGS: Settings = Settings {
    columns: 2,
    rows: 1,
    hoppers: tile(1),
    sources: tile(0),
    width: 100,
    length: 30,
    gap: 10,
    travel: 20,
};

pub fn fresh() -> Floor {
    Floor::fresh(SETTINGS).expect("a floor")
}

pub fn canister(number: u32, a: u16, b: u16) -> Canister {
    Canister::new(number, a, b)
}
