//! Fresh floor, booking, stop, repair and reading.

use crate::check::{settings_refusal, well_formed};
use crate::faults::{self, Fault};
use crate::refusal;
use crate::round::route;
use crate::types::{
    Answer, Canister, Counters, Floor, Reading, Settings, Tile, NONE, NO_SIDE, PLACES,
};

pub fn fresh(settings: Settings) -> Answer {
    match settings_refusal(&settings) {
        refusal::ACCEPTED => Answer::accepted(fresh_floor(settings)),
        refusal => Answer::refused(refusal, &Floor::ZERO),
    }
}

fn fresh_floor(settings: Settings) -> Floor {
    let mut floor = Floor {
        settings,
        ..Floor::ZERO
    };
    floor.tiles[..settings.tile_count()].fill(Tile::IDLE);
    for hopper in settings.hopper_tiles() {
        floor.tiles[hopper].distance = 0;
    }
    floor
}

pub fn book(floor: &Floor, tile: u32, canister: Canister) -> Answer {
    let Canister { number, a, b } = canister;
    match checked_source(floor, tile, number, Some((a, b))) {
        Ok(tile) if has_room(floor, tile, &canister) => {
            Answer::accepted(add(floor, tile, canister))
        }
        Ok(_) => Answer::refused(refusal::TOO_CLOSE, floor),
        Err(refusal) => Answer::refused(refusal, floor),
    }
}

/// The floor with one canister more, which was booked.
pub(crate) fn add(floor: &Floor, tile: usize, canister: Canister) -> Floor {
    let mut after = *floor;
    after.insert(tile, canister);
    after.counters = Counters {
        last: canister.number,
        booked: floor.counters.booked + 1,
        ..floor.counters
    };
    after
}

/// The tile to book on, or the first refusal in the paper's order of all that
/// come before the spacing. A booking without a place can't be 7.
pub(crate) fn checked_source(
    floor: &Floor,
    tile: u32,
    number: u32,
    place: Option<(u16, u16)>,
) -> Result<usize, u8> {
    let settings = &floor.settings;
    let tile = checked_tile(floor, tile)?;
    let span = settings.span();
    if !settings.is_source(tile) {
        Err(refusal::NOT_A_SOURCE)
    } else if number == 0 {
        Err(refusal::NUMBER_ZERO)
    } else if place.is_some_and(|(a, b)| a > span || b > span) {
        Err(refusal::OUTSIDE)
    } else if faults::on(Fault::NumberBeforeStopped) && number <= floor.counters.last {
        Err(refusal::NUMBER_USED)
    } else if floor.tiles[tile].running == 0 {
        Err(refusal::STOPPED)
    } else if number <= floor.counters.last {
        Err(refusal::NUMBER_USED)
    } else {
        Ok(tile)
    }
}

fn has_room(floor: &Floor, tile: usize, canister: &Canister) -> bool {
    let spacing = floor.settings.spacing() + u32::from(faults::on(Fault::BookTooStrict));
    floor
        .members(tile)
        .iter()
        .all(|other| other.clear_of(canister, spacing))
}

/// Refusals 30 and 4, which open every call on a tile.
fn checked_tile(floor: &Floor, tile: u32) -> Result<usize, u8> {
    if !well_formed(floor) {
        return Err(refusal::MALFORMED);
    }
    let tile = match faults::on(Fault::TileCut) {
        true => tile & 255,
        false => tile,
    };
    usize::try_from(tile)
        .ok()
        .filter(|tile| *tile < floor.settings.tile_count())
        .ok_or(refusal::NO_TILE)
}

pub fn stop(floor: &Floor, tile: u32) -> Answer {
    match checked_stop(floor, tile) {
        Ok(tile) => {
            let mut after = *floor;
            after.tiles[tile] = Tile {
                running: 0,
                distance: NONE,
                next: NO_SIDE,
                token: NO_SIDE,
                count: floor.tiles[tile].count,
            };
            if faults::on(Fault::StopClears) {
                after.tiles[tile].count = 0;
                after.canisters[tile * PLACES..][..PLACES].fill(Canister::ZERO);
            }
            Answer::accepted(after)
        }
        Err(refusal) => Answer::refused(refusal, floor),
    }
}

fn checked_stop(floor: &Floor, tile: u32) -> Result<usize, u8> {
    let tile = checked_tile(floor, tile)?;
    let lowest = floor.settings.rank(tile) == Some(0);
    if floor.settings.is_hopper(tile) && (lowest || !faults::on(Fault::StopOther)) {
        Err(refusal::STOP_OF_HOPPER)
    } else if floor.tiles[tile].running == 0 {
        Err(refusal::STOPPED)
    } else {
        Ok(tile)
    }
}

pub fn repair(floor: &Floor, tile: u32) -> Answer {
    match checked_repair(floor, tile) {
        Ok(tile) => {
            let mut after = *floor;
            after.tiles[tile].running = 1;
            if faults::on(Fault::RepairRoutes) {
                after.tiles[tile] = route(&after)[tile];
            }
            Answer::accepted(after)
        }
        Err(refusal) => Answer::refused(refusal, floor),
    }
}

fn checked_repair(floor: &Floor, tile: u32) -> Result<usize, u8> {
    let tile = checked_tile(floor, tile)?;
    if floor.tiles[tile].running == 1 {
        Err(refusal::RUNNING)
    } else {
        Ok(tile)
    }
}

pub fn read(floor: &Floor, tile: u32) -> Reading {
    match checked_tile(floor, tile) {
        Ok(tile) => {
            let mut members = [Canister::ZERO; PLACES];
            members.copy_from_slice(floor.places(tile));
            Reading {
                refusal: refusal::ACCEPTED,
                tile: floor.tiles[tile],
                members,
            }
        }
        Err(refusal) => Reading::refused(refusal),
    }
}
