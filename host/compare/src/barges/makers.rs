//! Barges and calls for the runs.

use oracle::random::{self, Rng};
use oracle::{Barge, Canister, Floor, FLOORS, MAX_ALLOWANCE, PLACES};

use super::aboard;
use crate::call::Call;
use crate::makers;

/// Any sound barge of floors that a maker gives.
pub fn any_barge(rng: &mut Rng, mut floor: impl FnMut(&mut Rng) -> Floor) -> Barge {
    let mut barge = Barge {
        floors: [(); FLOORS].map(|()| floor(rng)),
        allowance: 1,
    };
    barge.allowance = allowance(rng, aboard(&barge));
    barge
}

/// Four full floors of 8 x 8 tiles with 4,032 canisters, as many as are ever
/// allowed, or with one less; and the tile and the floor that lack it.
pub fn full_barge(rng: &mut Rng) -> (Barge, u32, u32) {
    let mut barge = any_barge(rng, |rng| {
        let settings = makers::roomy_floor(rng).settings;
        makers::packed_with(rng, settings, true)
    });
    barge.allowance = MAX_ALLOWANCE;
    let at = rng.below(FLOORS as u64) as usize;
    let floor = &mut barge.floors[at];
    let tile = rng.pick(&[5, 40, 62]);
    let tile = tile + usize::from(floor.settings.is_hopper(tile));
    if rng.chance(2, 3) {
        floor.tiles[tile].count -= 1;
        floor.canisters[tile * PLACES + PLACES - 1] = Canister::ZERO;
        floor.counters.booked -= 1;
    }
    (barge, at as u32, tile as u32)
}

/// An allowance near the total, or any.
fn allowance(rng: &mut Rng, total: u64) -> u32 {
    let near = match rng.below(12) {
        0 => 1,
        1 => u64::from(MAX_ALLOWANCE),
        2 => rng.range(1, MAX_ALLOWANCE.into()),
        3 => total.saturating_sub(1),
        4 | 5 => total,
        6..=8 => total + 1,
        9 => total + 2,
        _ => total + rng.range(3, 40),
    };
    near.clamp(1, MAX_ALLOWANCE.into()) as u32
}

/// Damages the barge by a floor in place of one of its own, or by an allowance
/// that no barge has. True for the latter.
pub fn damage(rng: &mut Rng, barge: &mut Barge, bad: Floor) -> bool {
    let measure = rng.chance(1, 4);
    match measure {
        true => barge.allowance = rng.pick(&[0, 0, 4_033, 4_033, 4_034, 65_535, u32::MAX]),
        false => barge.floors[rng.below(FLOORS as u64) as usize] = bad,
    }
    measure
}

/// Mostly 0 to 3.
pub fn any_floor_number(rng: &mut Rng) -> u32 {
    match rng.below(10) {
        0 => rng.pick(&[4, 4, 5, 255, 256, 256, 257, 1 << 16, u32::MAX, u32::MAX]),
        _ => rng.below(FLOORS as u64) as u32,
    }
}

/// A call of each sort for the floor of a number, or for the first where there
/// is none of that number.
pub fn any_call(rng: &mut Rng, barge: &Barge, number: u32) -> Call {
    let floor = barge
        .floors
        .get(number as usize)
        .unwrap_or(&barge.floors[0]);
    let tile = random::any_tile(rng, floor);
    match rng.below(12) {
        0..=2 => booking(rng, floor),
        3..=5 => makers::any_booking(rng, floor),
        6 | 7 => Call::Stop { tile },
        8 => Call::Repair { tile },
        9 => repair(rng, floor),
        _ => Call::Round,
    }
}

/// A repair of a tile that stands, if there is one.
fn repair(rng: &mut Rng, floor: &Floor) -> Call {
    let tiles = 0..floor.settings.tile_count().min(64) as u32;
    let stands = |tile: &u32| floor.tiles[*tile as usize].running == 0;
    let stopped: Vec<u32> = tiles.filter(stands).collect();
    let tile = match stopped.is_empty() {
        true => random::any_tile(rng, floor),
        false => rng.pick(&stopped),
    };
    Call::Repair { tile }
}

/// A booking of the next number on a fill tile, of either sort.
fn booking(rng: &mut Rng, floor: &Floor) -> Call {
    let fill = |tile: &u32| floor.settings.is_source(*tile as usize);
    let tiles: Vec<u32> = (0..64).filter(fill).collect();
    let tile = match tiles.is_empty() {
        true => random::any_tile(rng, floor),
        false => rng.pick(&tiles),
    };
    let number = floor.counters.last.saturating_add(1);
    match rng.chance(1, 2) {
        true => Call::BookAnywhere { tile, number },
        false => makers::booking_on(rng, floor, tile, number),
    }
}

/// A call of a list: bookings and rounds mostly, sensible ones.
pub fn list_call(rng: &mut Rng, floor: &Floor) -> Call {
    match rng.below(16) {
        0..=5 => booking(rng, floor),
        6 => makers::any_booking(rng, floor),
        7 => Call::Stop {
            tile: random::any_tile(rng, floor),
        },
        8 | 9 => repair(rng, floor),
        _ => Call::Round,
    }
}
