//! Random calls for a floor.

use super::*;

/// A call that belongs in a list.
#[derive(Clone, Copy, PartialEq, Eq, Debug)]
pub enum Call {
    Book { tile: u32, canister: Canister },
    BookAnywhere { tile: u32, number: u32 },
    Stop { tile: u32 },
    Repair { tile: u32 },
    Round,
    Keep { name: [u8; 8] },
    Forget { name: [u8; 8] },
    Recall { name: [u8; 8] },
}

/// A call for the given well-formed floor, mostly a sensible one.
pub fn call(rng: &mut Rng, floor: &Floor) -> Call {
    match rng.below(22) {
        0..=10 => Call::Round,
        11..=14 => Call::Book {
            tile: booking_tile(rng, floor),
            canister: booking(rng, floor),
        },
        15 | 16 => Call::BookAnywhere {
            tile: booking_tile(rng, floor),
            number: booking(rng, floor).number,
        },
        17 => Call::Stop {
            tile: tile_that(rng, floor, |tile| tile.running == 1),
        },
        20 => match rng.chance(2, 3) {
            true => Call::Keep {
                name: name_for(rng, floor),
            },
            false => Call::Forget {
                name: name_for(rng, floor),
            },
        },
        21 => Call::Recall {
            name: name_for(rng, floor),
        },
        _ => Call::Repair {
            tile: tile_that(rng, floor, |tile| tile.running == 0),
        },
    }
}

/// A call that every well-formed floor refuses.
pub fn refused_call(rng: &mut Rng, floor: &Floor) -> Call {
    let outside = rng.u32(64, u32::MAX);
    match rng.below(8) {
        0 => Call::Stop { tile: outside },
        1 => Call::Repair { tile: outside },
        3 => Call::Keep {
            name: bad_name(rng),
        },
        4 => Call::Forget {
            name: bad_name(rng),
        },
        5 => Call::Recall {
            name: bad_name(rng),
        },
        2 => Call::Stop {
            tile: any_hopper(rng, floor),
        },
        6 => Call::BookAnywhere {
            tile: booking_tile(rng, floor),
            number: 0,
        },
        _ => Call::Book {
            tile: booking_tile(rng, floor),
            canister: Canister {
                number: 0,
                ..booking(rng, floor)
            },
        },
    }
}

/// One of the hoppers, of which there is one at least.
fn any_hopper(rng: &mut Rng, floor: &Floor) -> u32 {
    let rank = rng.below(floor.settings.hopper_count() as u64) as usize;
    let tile = floor.settings.hopper_tiles().nth(rank);
    tile.map_or(0, |tile| tile as u32)
}

/// Any tile number, on the floor or not.
pub fn any_tile(rng: &mut Rng, floor: &Floor) -> u32 {
    let tiles = floor.settings.tile_count().max(1) as u32;
    match rng.below(8) {
        0 => tiles,
        1 => rng.pick(&[64, 255, 256, 1 << 16, u32::MAX]),
        2 => 256 + rng.u32(0, tiles - 1),
        _ => rng.u32(0, tiles - 1),
    }
}

fn tile_that(rng: &mut Rng, floor: &Floor, fits: impl Fn(&Tile) -> bool) -> u32 {
    let mut tile = any_tile(rng, floor);
    if rng.chance(9, 10) {
        for _ in 0..16 {
            tile = rng.u32(0, floor.settings.tile_count() as u32 - 1);
            if fits(&floor.tiles[tile as usize]) {
                break;
            }
        }
    }
    tile
}

fn booking_tile(rng: &mut Rng, floor: &Floor) -> u32 {
    let mut tile = any_tile(rng, floor);
    if rng.chance(19, 20) {
        for _ in 0..16 {
            tile = rng.u32(0, floor.settings.tile_count() as u32 - 1);
            if floor.settings.is_source(tile as usize) && floor.tiles[tile as usize].running == 1 {
                break;
            }
        }
    }
    tile
}

fn booking(rng: &mut Rng, floor: &Floor) -> Canister {
    let settings = &floor.settings;
    let last = floor.counters.last;
    let number = match rng.below(30) {
        0 => 0,
        1 => last,
        2 => rng.u32(0, last),
        _ => last.saturating_add(rng.u32(1, 3)),
    };
    let mut canister = Canister {
        number,
        a: coordinate(rng, settings),
        b: coordinate(rng, settings),
    };
    match rng.below(40) {
        0 => canister.a = rng.u16(settings.span() + 1, u16::MAX),
        1 => canister.b = rng.u16(settings.span() + 1, u16::MAX),
        2 => canister.a = settings.span() + 1,
        3 => canister.b = settings.span() + 1,
        _ => {}
    }
    canister
}
