//! The rules for settings, and "well formed" on raw memory.

use crate::faults::{self, Fault};
use crate::grid::{Grid, Side, Spot};
use crate::layouts::layouts_fit;
use crate::refusal;
use crate::types::{
    Canister, Counters, Floor, Settings, Tile, MAX_HOPPERS, MAX_TILES, NONE, NO_SIDE, PLACES,
};

/// 0, or the first of the refusals 1 to 3.
pub fn settings_refusal(settings: &Settings) -> u8 {
    if !grid_fits(settings) {
        refusal::GRID
    } else if faults::on(Fault::MeasureBeforeSets) && !measures_fit(settings) {
        refusal::MEASURE
    } else if !sets_fit(settings) {
        refusal::SETS
    } else if !measures_fit(settings) {
        refusal::MEASURE
    } else {
        refusal::ACCEPTED
    }
}

fn grid_fits(settings: &Settings) -> bool {
    (1..=8).contains(&settings.columns)
        && (1..=8).contains(&settings.rows)
        && settings.tile_count() >= 2
}

/// For a grid that fits, so that C is 2 to 64.
fn sets_fit(settings: &Settings) -> bool {
    let (hoppers, sources) = (settings.hoppers, settings.sources);
    let tested = match faults::on(Fault::FillLowest) {
        true => hoppers & hoppers.wrapping_neg(),
        false => hoppers,
    };
    (1..=MAX_HOPPERS).contains(&settings.hopper_count())
        && (hoppers | sources) & !settings.all_tiles() == 0
        && sources & tested == 0
}

fn measures_fit(settings: &Settings) -> bool {
    let width = u32::from(settings.width);
    let length = u32::from(settings.length);
    let spacing = settings.spacing();
    (2..=60_000).contains(&width)
        && settings.travel >= 1
        && settings.travel < settings.length
        && spacing < width
        && (width - length) / spacing <= 3
}

/// Every clause of the paper's paragraph, on memory that may hold anything.
pub fn well_formed(floor: &Floor) -> bool {
    let settings = &floor.settings;
    settings_refusal(settings) == refusal::ACCEPTED
        && Grid::of(settings)
            .spots()
            .all(|spot| tile_fits(floor, spot) && members_fit(floor, spot.tile))
        && unused_tiles_are_zero(floor)
        && numbers_and_counters_fit(floor)
        && layouts_fit(floor)
}

fn tile_fits(floor: &Floor, spot: Spot) -> bool {
    let settings = &floor.settings;
    let tile = &floor.tiles[spot.tile];
    let grid = Grid::of(settings);
    let state_fits = if settings.is_hopper(spot.tile) {
        tile.running == 1 && tile.distance == 0 && tile.next == NO_SIDE && tile.count == 0
    } else {
        match tile.running {
            1 => running_tile_fits(tile, settings.tile_count()),
            0 => tile.distance == NONE && tile.next == NO_SIDE && tile.token == NO_SIDE,
            _ => false,
        }
    };
    state_fits
        && side_fits(grid, spot, tile.next)
        && (side_fits(grid, spot, tile.token) || faults::on(Fault::TurnUnchecked))
}

fn running_tile_fits(tile: &Tile, tiles: usize) -> bool {
    match tile.distance {
        NONE => tile.next == NO_SIDE,
        0 => false,
        near => usize::from(near) < tiles && tile.next != NO_SIDE,
    }
}

/// None, or a side with a tile of the floor behind it.
fn side_fits(grid: Grid, spot: Spot, code: u8) -> bool {
    code == NO_SIDE
        || Side::from_code(code).is_some_and(|side| grid.neighbour(spot, side).is_some())
}

/// The canisters of one tile and the zeros in its unused places.
fn members_fit(floor: &Floor, tile: usize) -> bool {
    let count = usize::from(floor.tiles[tile].count);
    if count > PLACES {
        return false;
    }
    let (used, unused) = floor.places(tile).split_at(count);
    let span = floor.settings.span();
    used.iter()
        .all(|c| (c.number != 0 || faults::on(Fault::ZeroHeld)) && c.a <= span && c.b <= span)
        && used.windows(2).all(|pair| pair[0].number < pair[1].number)
        && spaced(used, floor.settings.spacing())
        && (unused.iter().all(|c| *c == Canister::ZERO) || faults::on(Fault::UnusedUnchecked))
}

fn spaced(members: &[Canister], spacing: u32) -> bool {
    members.iter().enumerate().all(|(at, one)| {
        members[at + 1..]
            .iter()
            .all(|other| one.clear_of(other, spacing))
    })
}

fn unused_tiles_are_zero(floor: &Floor) -> bool {
    let tiles = floor.settings.tile_count();
    floor.tiles[tiles..].iter().all(|tile| *tile == Tile::ZERO)
        && floor.canisters[tiles * PLACES..]
            .iter()
            .all(|canister| *canister == Canister::ZERO)
}

/// For tiles whose counts fit: one tile for each number, and the counters.
fn numbers_and_counters_fit(floor: &Floor) -> bool {
    let mut numbers = [0; MAX_TILES * PLACES];
    let mut held = 0;
    for tile in 0..floor.settings.tile_count() {
        for canister in floor.members(tile) {
            numbers[held] = canister.number;
            held += 1;
        }
    }
    let numbers = &mut numbers[..held];
    numbers.sort_unstable();
    let counters = &floor.counters;
    (numbers.windows(2).all(|pair| pair[0] != pair[1]) || faults::on(Fault::RepeatAccepted))
        && numbers.last().is_none_or(|most| *most <= counters.last)
        && counters_fit(counters, held as u64, floor.settings.hopper_count())
}

/// The counters of a floor with so many canisters and one to four hoppers.
fn counters_fit(counters: &Counters, held: u64, hoppers: usize) -> bool {
    let total = counters.delivered_in_all() + held;
    let total = match faults::on(Fault::SumWraps) {
        true => u64::from(total as u32),
        false => total,
    };
    let unused = &counters.delivered[hoppers..];
    u64::from(counters.booked) == total
        && (counters.booked <= counters.last || faults::on(Fault::BookedAboveLast))
        && (unused.iter().all(|count| *count == 0) || faults::on(Fault::UnusedCounter))
}
