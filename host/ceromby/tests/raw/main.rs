//! The calls as C gets them.

mod barge;
mod calls;
mod page;
mod plan;
mod throughput;

use ceromby::raw::{tile, Settings};

/// Document 01's first trial: two tiles, the hopper in the east.
pub const SETTINGS: Settings = Settings {
    columns: 2,
    rows: 1,
    hoppers: tile(1),
    sources: tile(0),
    width: 100,
    length: 30,
    gap: 10,
    travel: 20,
};
