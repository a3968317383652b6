//! One round: route, signal, move.

use crate::check::well_formed;
use crate::faults::{self, Fault};
use crate::grid::{Grid, Side, Spot};
use crate::reason;
use crate::refusal;
use crate::types::{
    Canister, Floor, Report, RoundAnswer, Settings, Tile, MAX_TILES, NONE, NO_SIDE, PLACES,
};

pub fn round(floor: &Floor) -> RoundAnswer {
    if !well_formed(floor) {
        return RoundAnswer {
            refusal: refusal::MALFORMED,
            floor: *floor,
            report: Report::ZERO,
        };
    }
    let mut tiles = route(floor);
    let signals = signal(floor, &mut tiles);
    let (after, mut report) = shift(floor, &tiles, &signals);
    let held = match faults::on(Fault::EmptyAfter) {
        true => after.tiles,
        false => floor.tiles,
    };
    for spot in Grid::of(&floor.settings).spots() {
        let reason = reason_of(floor, &tiles, &signals, &held, spot);
        (report.reasons[spot.tile], report.missing[spot.tile]) = reason;
    }
    RoundAnswer {
        refusal: refusal::ACCEPTED,
        floor: after,
        report,
    }
}

/// New distances and arrows, all from the old ones.
pub(crate) fn route(floor: &Floor) -> [Tile; MAX_TILES] {
    let grid = Grid::of(&floor.settings);
    let mut tiles = floor.tiles;
    for spot in grid.spots() {
        if !floor.settings.is_hopper(spot.tile) && floor.tiles[spot.tile].running == 1 {
            let old = match faults::on(Fault::RouteInPlace) {
                true => &tiles,
                false => &floor.tiles,
            };
            let (least, first) = nearest(old, grid, spot);
            let seen = match faults::on(Fault::KeepByNew) {
                true => &tiles,
                false => &floor.tiles,
            };
            let next = kept(seen, grid, spot, least).unwrap_or(first);
            let uncut = least < NONE - 1 && faults::on(Fault::NoCut);
            let near = usize::from(least) + 1 < floor.settings.tile_count() || uncut;
            let tile = &mut tiles[spot.tile];
            (tile.distance, tile.next) = match near {
                true => (least + 1, next),
                false => (NONE, NO_SIDE),
            };
        }
    }
    tiles
}

/// The least distance among a tile's neighbours, and the first side that has it.
fn nearest(old: &[Tile; MAX_TILES], grid: Grid, spot: Spot) -> (u8, u8) {
    let mut least = NONE;
    let mut first = NO_SIDE;
    for side in Side::ALL {
        if let Some(there) = grid.neighbour(spot, side) {
            let distance = old[there].distance;
            let tie = distance == least && distance != NONE;
            if distance < least || tie && faults::on(Fault::LaterSide) {
                least = distance;
                first = side.code();
            }
        }
    }
    (least, first)
}

/// The present arrow, if it faces a neighbour of the least distance.
fn kept(old: &[Tile; MAX_TILES], grid: Grid, spot: Spot, least: u8) -> Option<u8> {
    let side = Side::from_code(old[spot.tile].next)?;
    let distance = old[grid.neighbour(spot, side)?].distance;
    let stuck = distance != NONE && faults::on(Fault::ArrowStuck);
    let keeps = distance == least && !faults::on(Fault::ArrowForgotten);
    (keeps || stuck).then_some(side.code())
}

/// What one tile decides.
#[derive(Clone, Copy)]
struct Signal {
    /// The turn before it passes on.
    turn: u8,
    /// Millimetres that the gap lacks on that side, 0 for a gap.
    missing: u16,
    /// The turn to keep.
    kept: u8,
}

impl Signal {
    const NONE: Signal = Signal {
        turn: NO_SIDE,
        missing: 0,
        kept: NO_SIDE,
    };

    /// The side granted.
    fn grant(&self) -> u8 {
        match self.missing {
            0 => self.turn,
            _ => NO_SIDE,
        }
    }
}

/// Updates the turns and gives what every tile decides.
fn signal(floor: &Floor, tiles: &mut [Tile; MAX_TILES]) -> [Signal; MAX_TILES] {
    let grid = Grid::of(&floor.settings);
    let mut signals = [Signal::NONE; MAX_TILES];
    for spot in grid.spots() {
        if tiles[spot.tile].running == 1 {
            let arrows = match faults::on(Fault::OldArrow) {
                true => &floor.tiles,
                false => &*tiles,
            };
            let wants = wanting_sides(grid, arrows, spot);
            let signal = decide(wants, tiles[spot.tile].token, |side| {
                missing(&floor.settings, floor.members(spot.tile), side)
            });
            let dropped =
                faults::on(Fault::HopperTurnDropped) && floor.settings.is_hopper(spot.tile);
            tiles[spot.tile].token = if dropped { NO_SIDE } else { signal.kept };
            signals[spot.tile] = signal;
        }
    }
    signals
}

/// For each side in cyclic order, whether the neighbour there wants to enter.
fn wanting_sides(grid: Grid, tiles: &[Tile; MAX_TILES], spot: Spot) -> [bool; 4] {
    Side::ALL.map(|side| {
        grid.neighbour(spot, side).is_some_and(|there| {
            tiles[there].count > 0 && tiles[there].next == side.opposite().code()
        })
    })
}

fn decide(wants: [bool; 4], turn: u8, missing: impl Fn(Side) -> u16) -> Signal {
    let held = Side::from_code(turn).filter(|side| wants[usize::from(side.code()) - 1]);
    let stored = turn;
    let start = match faults::on(Fault::TurnFromWest) {
        true => NO_SIDE,
        false => turn,
    };
    let Some(turn) = held.or_else(|| first_after(wants, start)) else {
        return Signal::NONE;
    };
    let missing = missing(turn);
    let kept = if missing == 0 {
        let following = first_after(wants, turn.code())
            .filter(|_| !faults::on(Fault::TurnNotPassed))
            .unwrap_or(turn);
        following.code()
    } else if faults::on(Fault::StoredTurnStays) {
        stored
    } else {
        turn.code()
    };
    Signal {
        turn: turn.code(),
        missing,
        kept,
    }
}

/// The first wanting side strictly after a turn, the turn itself being last.
/// After "none" the search begins in the west.
fn first_after(wants: [bool; 4], turn: u8) -> Option<Side> {
    let start = usize::from(turn);
    (start..start + 4)
        .map(|at| at % 4)
        .find(|at| wants[*at])
        .map(|at| Side::ALL[at])
}

/// The millimetres that a free strip of depth d lacks along a side: the worst
/// canister's, 0 for a gap.
fn missing(settings: &Settings, members: &[Canister], side: Side) -> u16 {
    let lacks = members
        .iter()
        .map(|canister| lack(settings, canister, side));
    let worst = match faults::on(Fault::BestCanister) {
        true => lacks.filter(|lack| *lack > 0).min(),
        false => lacks.max(),
    };
    // At most d, which is below U.
    worst.map_or(0, |lack| lack as u16)
}

/// The millimetres by which one canister stands in the strip.
fn lack(settings: &Settings, canister: &Canister, side: Side) -> u32 {
    let spacing = settings.spacing() - u32::from(faults::on(Fault::GapShort));
    let (a, b) = (u32::from(canister.a), u32::from(canister.b));
    let beyond = |along: u32| {
        let end = along + u32::from(settings.length) + spacing;
        end.saturating_sub(settings.width.into())
    };
    match side {
        Side::West => spacing.saturating_sub(a),
        Side::South => spacing.saturating_sub(b),
        Side::North => beyond(b),
        Side::East => beyond(a),
    }
}

/// The first reason that fits a tile, judged after Signal, and the missing
/// millimetres. `held` has the canisters when the round began.
fn reason_of(
    floor: &Floor,
    tiles: &[Tile; MAX_TILES],
    signals: &[Signal; MAX_TILES],
    held: &[Tile; MAX_TILES],
    spot: Spot,
) -> (u8, u16) {
    if tiles[spot.tile].running == 0 {
        return (reason::STOPPED, 0);
    }
    if held[spot.tile].count == 0 {
        return (reason::EMPTY, 0);
    }
    let Some((side, there)) = ahead(Grid::of(&floor.settings), tiles, spot) else {
        return (reason::NO_ARROW, 0);
    };
    let Signal {
        turn,
        missing,
        kept,
    } = signals[there];
    let turn = match faults::on(Fault::PassedTurn) {
        true => kept,
        false => turn,
    };
    if turn != side.opposite().code() && !(missing > 0 && faults::on(Fault::GapBeforeTurn)) {
        let beside = faults::on(Fault::MissingBeside);
        (reason::OTHER_TURN, if beside { missing } else { 0 })
    } else if missing > 0 {
        (reason::NO_GAP, missing)
    } else {
        (reason::MOVED, 0)
    }
}

/// Moves every canister from the old floor onto a new one.
fn shift(old: &Floor, tiles: &[Tile; MAX_TILES], signals: &[Signal; MAX_TILES]) -> (Floor, Report) {
    let grid = Grid::of(&old.settings);
    let grants = signals.map(|signal| signal.grant());
    let mut report = Report {
        grants,
        ..Report::ZERO
    };
    let mut floor = Floor {
        settings: old.settings,
        counters: old.counters,
        tiles: tiles.map(|tile| Tile { count: 0, ..tile }),
        canisters: [Canister::ZERO; MAX_TILES * PLACES],
        layouts: old.layouts,
    };
    for spot in grid.spots() {
        let granted = |(side, there): &(Side, usize)| grants[*there] == side.opposite().code();
        let way = ahead(grid, tiles, spot).filter(granted);
        for canister in old.members(spot.tile) {
            let (place, moved) = match way {
                Some((side, there)) => match advance(&old.settings, *canister, side) {
                    (moved, true) => (there, moved),
                    (moved, false) => (spot.tile, moved),
                },
                None => (spot.tile, *canister),
            };
            match old.settings.rank(place) {
                Some(rank) => deliver(&mut floor, &mut report, rank, moved.number),
                None => floor.insert(place, moved),
            }
        }
    }
    (floor, report)
}

/// The side and tile that a tile's arrow leads to.
fn ahead(grid: Grid, tiles: &[Tile; MAX_TILES], spot: Spot) -> Option<(Side, usize)> {
    let side = Side::from_code(tiles[spot.tile].next)?;
    grid.neighbour(spot, side).map(|there| (side, there))
}

/// The canister after the shift, and whether it crossed.
fn advance(settings: &Settings, canister: Canister, side: Side) -> (Canister, bool) {
    let along = match side {
        Side::West | Side::East => canister.a,
        Side::South | Side::North => canister.b,
    };
    let (along, crossed) = match side {
        Side::East | Side::North => forward(settings, along),
        Side::West | Side::South => backward(settings, along),
    };
    let moved = match side {
        Side::West | Side::East => Canister {
            a: along,
            ..canister
        },
        Side::South | Side::North => Canister {
            b: along,
            ..canister
        },
    };
    (moved, crossed)
}

fn forward(settings: &Settings, along: u16) -> (u16, bool) {
    match along.checked_add(settings.travel) {
        Some(moved) if moved == settings.span() && faults::on(Fault::CrossAtTouch) => (0, true),
        Some(moved) if moved <= settings.span() => (moved, false),
        _ => (0, true),
    }
}

fn backward(settings: &Settings, along: u16) -> (u16, bool) {
    match along.checked_sub(settings.travel) {
        Some(moved) => (moved, false),
        None => (
            settings.span() - u16::from(faults::on(Fault::LandingShort)),
            true,
        ),
    }
}

/// Numbers come in rising order, since one tile at most moves into a hopper.
fn deliver(floor: &mut Floor, report: &mut Report, rank: usize, number: u32) {
    if rank > 0 && faults::on(Fault::OnlyLowest) {
        return;
    }
    let delivery = &mut report.deliveries[rank];
    delivery.numbers[usize::from(delivery.count)] = number;
    delivery.count += 1;
    let counted = match rank {
        0 | 1 if faults::on(Fault::CountersSwapped) && floor.settings.hopper_count() > 1 => {
            1 - rank
        }
        _ => rank,
    };
    floor.counters.delivered[counted] += 1 + u32::from(faults::on(Fault::DeliveredTwice));
}
