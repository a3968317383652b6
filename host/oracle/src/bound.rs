//! When at the latest all that has a live path is delivered.

use crate::check::well_formed;
use crate::faults::{self, Fault};
use crate::grid::{Grid, Side, Spot};
use crate::refusal;
use crate::types::{holds, Floor, Settings, NONE};

/// The answer of `bound`.
#[repr(C)]
#[derive(Clone, Copy, PartialEq, Eq, Debug)]
pub struct Bounded {
    /// (C - 1) (1 + K M).
    pub rounds: u32,
    /// K, the canisters on tiles with a live path.
    pub connected: u32,
    /// The canisters on all other tiles, stopped ones too.
    pub unconnected: u32,
    pub refusal: u8,
}

pub fn bound(floor: &Floor) -> Bounded {
    if !well_formed(floor) {
        return refused(floor);
    }
    let (connected, unconnected) = counted(floor, live(floor));
    Bounded {
        rounds: rounds(&floor.settings, connected),
        connected,
        unconnected,
        refusal: refusal::ACCEPTED,
    }
}

fn refused(floor: &Floor) -> Bounded {
    let unconnected: u32 = match faults::on(Fault::RefusedCounted) {
        true => floor.tiles.iter().map(|tile| u32::from(tile.count)).sum(),
        false => 0,
    };
    Bounded {
        rounds: 0,
        connected: 0,
        unconnected,
        refusal: refusal::MALFORMED,
    }
}

/// The tiles with a live path, as a set: the hoppers, and whatever runs beside
/// a tile that has one.
fn live(floor: &Floor) -> u64 {
    let grid = Grid::of(&floor.settings);
    if faults::on(Fault::DistanceConnects) {
        let near = |spot: &Spot| floor.tiles[spot.tile].distance != NONE;
        return with(0, grid.spots().filter(near));
    }
    let runs = |spot: &Spot| floor.tiles[spot.tile].running == 1 || faults::on(Fault::StopLeadsOn);
    let mut live = ends(&floor.settings);
    loop {
        let reached = |spot: &Spot| runs(spot) && beside(grid, *spot, live);
        let more = with(live, grid.spots().filter(reached));
        if more == live {
            return live;
        }
        live = more;
    }
}

/// Where a live path may end.
fn ends(settings: &Settings) -> u64 {
    match faults::on(Fault::LowestHopperEnds) {
        true => settings.hoppers & settings.hoppers.wrapping_neg(),
        false => settings.hoppers,
    }
}

/// A set and more tiles.
fn with(set: u64, spots: impl Iterator<Item = Spot>) -> u64 {
    spots.fold(set, |set, spot| set | 1 << spot.tile)
}

/// Whether a neighbour of the spot is in the set.
fn beside(grid: Grid, spot: Spot, set: u64) -> bool {
    let neighbour = |side| grid.neighbour(spot, side);
    let mut neighbours = Side::ALL.into_iter().filter_map(neighbour);
    let across = faults::on(Fault::AcrossColumns) && holds(set << 1 | set >> 1, spot.tile);
    across || neighbours.any(|there| holds(set, there))
}

/// The canisters on the tiles of a set, and those on all others.
fn counted(floor: &Floor, live: u64) -> (u32, u32) {
    let (mut connected, mut unconnected) = (0, 0);
    let used = &floor.tiles[..floor.settings.tile_count()];
    for (at, tile) in used.iter().enumerate() {
        let stopped = tile.running == 0;
        let count = u32::from(tile.count);
        if holds(live, at) || stopped && faults::on(Fault::StoppedConnected) {
            connected += match faults::on(Fault::TilesConnected) {
                true => count.min(1),
                false => count,
            };
        } else if !(stopped && faults::on(Fault::StoppedLeftOut)) {
            unconnected += count;
        }
    }
    match faults::on(Fault::AllConnected) {
        true => (connected + unconnected, unconnected),
        false => (connected, unconnected),
    }
}

/// (C - 1) (1 + K M), which is at most 63 (1 + 1,008 x 59,999).
fn rounds(settings: &Settings, waiting: u32) -> u32 {
    if waiting == 0 && faults::on(Fault::IdleBound) {
        return 0;
    }
    let tiles = settings.tile_count() as u32;
    let longest = tiles - u32::from(!faults::on(Fault::BoundAllTiles));
    let first = u32::from(!faults::on(Fault::BoundNoStart));
    let rounds = longest * (first + waiting * across(settings));
    match faults::on(Fault::BoundCut) {
        true => rounds & 0xffff,
        false => rounds,
    }
}

/// M, the most rounds that a canister takes across a tile.
fn across(settings: &Settings) -> u32 {
    let way = match faults::on(Fault::WholeWidth) {
        true => settings.width,
        false => settings.span(),
    };
    u32::from(way / settings.travel) + u32::from(!faults::on(Fault::CrossingShort))
}
