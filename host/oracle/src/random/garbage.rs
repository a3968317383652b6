//! Floors with any bytes, and floors with a few fields changed.

use super::*;
use crate::types::{Layout, MAX_LAYOUTS};

/// A floor with any bytes in its fields.
pub fn garbage_floor(rng: &mut Rng) -> Floor {
    let mut floor = Floor::ZERO;
    floor.settings = match rng.chance(1, 2) {
        true => settings(rng),
        false => garbage_settings(rng),
    };
    floor.counters = Counters {
        last: rng.draw() as u32,
        booked: rng.draw() as u32,
        delivered: [0; MAX_HOPPERS].map(|_| rng.draw() as u32),
    };
    for tile in &mut floor.tiles {
        *tile = garbage_tile(rng);
    }
    for canister in &mut floor.canisters {
        *canister = Canister {
            number: rng.draw() as u32,
            a: rng.draw() as u16,
            b: rng.draw() as u16,
        };
    }
    if rng.chance(1, 2) {
        floor.layouts = floor.layouts.map(|_| Layout {
            name: rng.draw(),
            set: rng.draw(),
        });
    }
    floor
}

fn garbage_settings(rng: &mut Rng) -> Settings {
    Settings {
        columns: rng.draw() as u8,
        rows: rng.draw() as u8,
        hoppers: rng.draw(),
        sources: rng.draw(),
        width: rng.draw() as u16,
        length: rng.draw() as u16,
        gap: rng.draw() as u16,
        travel: rng.draw() as u16,
    }
}

fn garbage_tile(rng: &mut Rng) -> Tile {
    Tile {
        running: rng.draw() as u8,
        distance: rng.draw() as u8,
        next: rng.draw() as u8,
        token: rng.draw() as u8,
        count: rng.draw() as u8,
    }
}

/// Writes a likely wrong value into one field of a floor.
pub fn spoil(rng: &mut Rng, floor: &mut Floor) {
    match rng.below(14) {
        0 | 1 => spoil_settings(rng, &mut floor.settings),
        2 => spoil_counters(rng, &mut floor.counters),
        3..=7 => {
            let tile = near_floor(rng, floor);
            spoil_tile(rng, &mut floor.tiles[tile]);
        }
        8 => copy_number(rng, floor),
        9 | 10 => spoil_layouts(rng, floor),
        _ => {
            let tile = near_floor(rng, floor);
            let reach = u64::from(floor.tiles[tile].count).min(PLACES as u64 - 1);
            let place = tile * PLACES + rng.range(0, reach) as usize;
            spoil_canister(rng, &mut floor.canisters[place]);
        }
    }
}

/// A tile of the floor, or at times one beyond it.
fn near_floor(rng: &mut Rng, floor: &Floor) -> usize {
    let tiles = floor.settings.tile_count().clamp(1, MAX_TILES) as u64;
    match rng.chance(1, 6) {
        true => rng.below(MAX_TILES as u64) as usize,
        false => rng.below(tiles) as usize,
    }
}

pub(super) fn spoil_settings(rng: &mut Rng, settings: &mut Settings) {
    let byte = rng.pick(&[0, 1, 2, 7, 8, 9, 63, 64, 200, 255]);
    let near = rng.pick(&[1, 2, u16::MAX, u16::MAX - 1]);
    let any = rng.pick(&[0, 1, 2, 3, 60_000, 60_001, u16::MAX]);
    match rng.below(12) {
        0 => settings.columns = byte,
        1 => settings.rows = byte,
        2 => spoil_hoppers(rng, settings),
        3 => spoil_sources(rng, settings),
        4 => settings.width = any,
        5 => settings.length = any,
        6 => settings.gap = any,
        7 => settings.travel = any,
        8 => settings.width = settings.width.wrapping_add(near),
        9 => settings.length = settings.length.wrapping_add(near),
        10 => settings.gap = settings.gap.wrapping_add(near),
        _ => settings.travel = settings.travel.wrapping_add(near),
    }
}

/// One hopper more or less, none, another one alone, or any.
fn spoil_hoppers(rng: &mut Rng, settings: &mut Settings) {
    let bit = 1 << rng.below(64);
    match rng.below(6) {
        0 | 1 => settings.hoppers ^= bit,
        2 => settings.hoppers &= settings.hoppers.wrapping_sub(1),
        3 => settings.hoppers |= rng.draw() & rng.draw() & rng.draw(),
        4 => settings.hoppers = bit,
        _ => settings.hoppers = 0,
    }
}

/// One fill tile more or less, or all hoppers but the lowest among them.
fn spoil_sources(rng: &mut Rng, settings: &mut Settings) {
    match rng.chance(1, 3) {
        true => settings.sources |= settings.hoppers & settings.hoppers.wrapping_sub(1),
        false => settings.sources ^= 1 << rng.below(64),
    }
}

fn spoil_counters(rng: &mut Rng, counters: &mut Counters) {
    let change = rng.pick(&[1, u32::MAX, 0x8000_0000]);
    let delivered = &mut counters.delivered[rng.below(MAX_HOPPERS as u64) as usize];
    match rng.below(5) {
        0 => counters.last = counters.last.wrapping_add(change),
        1 => counters.booked = counters.booked.wrapping_add(change),
        2 => *delivered = delivered.wrapping_add(change),
        3 => counters.delivered.rotate_right(1),
        _ => {
            counters.booked = counters.booked.wrapping_add(change);
            *delivered = delivered.wrapping_add(change);
        }
    }
}

fn spoil_tile(rng: &mut Rng, tile: &mut Tile) {
    let value = rng.pick(&[0, 1, 2, 3, 4, 5, 7, 15, 16, 17, 63, 64, 254, 255]);
    match rng.below(5) {
        0 => tile.running = value,
        1 => tile.distance = value,
        2 => tile.next = value,
        3 => tile.token = value,
        _ => tile.count = value,
    }
}

fn spoil_canister(rng: &mut Rng, canister: &mut Canister) {
    let near = rng.pick(&[1, 2, u16::MAX, u16::MAX - 1, 0x8000]);
    match rng.below(5) {
        0 => canister.number = 0,
        1 => canister.number = canister.number.wrapping_add(near.into()),
        2 => canister.number = rng.draw() as u32,
        3 => canister.a = canister.a.wrapping_add(near),
        _ => canister.b = canister.b.wrapping_add(near),
    }
}

/// Changes a layout, or one of the first places without.
fn spoil_layouts(rng: &mut Rng, floor: &mut Floor) {
    let reach = (floor.layout_count() as u64).min(MAX_LAYOUTS as u64 - 1);
    let at = rng.range(0, reach) as usize;
    let other = rng.range(0, reach) as usize;
    let bit = 1 << rng.below(64);
    let layouts = &mut floor.layouts;
    match rng.below(8) {
        0 => layouts[at].name = u64::from_be_bytes(bad_name(rng)),
        1 => layouts[at].name ^= bit,
        2 => layouts[at].name = u64::from_be_bytes(name(rng)),
        3 => layouts[at].set ^= bit,
        4 => layouts[at].set &= !rng.draw(),
        5 => layouts.swap(at, other),
        6 => layouts[at] = layouts[other],
        _ => layouts[at] = Layout::ZERO,
    }
}

/// Gives one canister the number of another.
fn copy_number(rng: &mut Rng, floor: &mut Floor) {
    let one = near_floor(rng, floor) * PLACES;
    let other = near_floor(rng, floor) * PLACES;
    floor.canisters[one].number = floor.canisters[other].number;
}

/// A floor that is well formed or broken in a few fields only.
pub fn nearly_sound_floor(rng: &mut Rng) -> Floor {
    let mut floor = floor(rng);
    debug_assert!(check::well_formed(&floor));
    for _ in 0..rng.below(3) {
        spoil(rng, &mut floor);
    }
    floor
}
