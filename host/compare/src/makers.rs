//! Floors and calls beyond those of `oracle::random`.

use oracle::random::{self, Rng};
use oracle::{
    only, Canister, Counters, Floor, Grid, Settings, Side, Tile, LONGEST_IMAGE, MAX_HOPPERS, NONE,
    PLACES,
};

use crate::call::Call;
use crate::{book_lists, images, layouts};

/// The image of a floor. None for a malformed one: the length 0 of its refused
/// write is no empty image.
pub fn image(floor: &Floor) -> Option<Vec<u8>> {
    let mut buffer = vec![0; LONGEST_IMAGE + 1];
    let answer = oracle::write(floor, &mut buffer);
    buffer.truncate(answer.length as usize);
    (answer.refusal == 0).then_some(buffer)
}

/// A call that belongs in a list: one of `oracle::random`, or several bookings
/// in one.
pub fn call(rng: &mut Rng, floor: &Floor) -> Call {
    match rng.chance(1, 48) {
        true => book_lists::few(rng, floor),
        false => random::call(rng, floor).into(),
    }
}

/// Any call with any arguments, at times several of them wrong.
pub fn any_call(rng: &mut Rng, floor: &Floor) -> Call {
    match rng.below(27) {
        0..=6 => Call::Round,
        7..=12 => any_booking(rng, floor),
        13 => Call::Stop {
            tile: random::any_tile(rng, floor),
        },
        14 => Call::Repair {
            tile: random::any_tile(rng, floor),
        },
        15 | 16 => Call::Read {
            tile: random::any_tile(rng, floor),
        },
        17 | 18 => writing(rng, floor),
        19 => loading(rng, floor),
        20 => Call::Fresh {
            settings: random::any_settings(rng),
        },
        21 | 22 => layouts::any_call(rng, floor),
        23 => book_lists::any_list(rng, floor),
        _ => random::call(rng, floor).into(),
    }
}

/// A booking of either sort with any arguments.
pub fn any_booking(rng: &mut Rng, floor: &Floor) -> Call {
    let last = floor.counters.last;
    let number = match rng.below(8) {
        0 => 0,
        1 => last,
        2 => rng.range(0, last.into()) as u32,
        3 => u32::MAX,
        _ => last.saturating_add(1),
    };
    let tile = random::any_tile(rng, floor);
    match rng.chance(1, 3) {
        true => Call::BookAnywhere { tile, number },
        false => booking_on(rng, floor, tile, number),
    }
}

/// A booking at any place of a tile.
pub fn booking_on(rng: &mut Rng, floor: &Floor, tile: u32, number: u32) -> Call {
    let canister = canister_on(rng, floor, tile, number);
    Call::Book { tile, canister }
}

/// A canister at any place of a tile.
pub fn canister_on(rng: &mut Rng, floor: &Floor, tile: u32, number: u32) -> Canister {
    Canister {
        number,
        a: coordinate(rng, floor, tile, |canister| canister.a),
        b: coordinate(rng, floor, tile, |canister| canister.b),
    }
}

/// Often at, or just off, a spacing from a canister of the tile.
fn coordinate(rng: &mut Rng, floor: &Floor, tile: u32, of: impl Fn(&Canister) -> u16) -> u16 {
    let span = floor.settings.span();
    let spacing = floor.settings.spacing() as u16;
    let near = match floor.tiles.get(tile as usize) {
        Some(held) if held.count > 0 => of(&rng.pick(floor.members(tile as usize))),
        _ => 0,
    };
    let place = match rng.below(16) {
        0 => 0,
        1 => span,
        2 => span.saturating_add(1),
        3 => rng.draw() as u16,
        4..=6 => near.saturating_add(spacing),
        7 => near.saturating_add(spacing.saturating_sub(1)),
        8 | 9 => near.saturating_sub(spacing),
        10 => near.saturating_sub(spacing.saturating_sub(1)),
        _ => rng.range(0, span.into()) as u16,
    };
    match rng.chance(1, 12) {
        true => place,
        false => place.min(span),
    }
}

/// A write to a buffer of some size near the image's.
pub fn writing(rng: &mut Rng, floor: &Floor) -> Call {
    Call::Write {
        size: buffer_size(rng, floor),
    }
}

/// The size of a buffer, near that of the floor's image.
pub fn buffer_size(rng: &mut Rng, floor: &Floor) -> usize {
    let length = image(floor).map_or(0, |image| image.len());
    match rng.below(8) {
        0 => 0,
        1 => length.saturating_sub(1),
        2 => rng.below(length as u64 + 1) as usize,
        3 | 4 => length,
        5 => length + 1,
        6 => length + rng.below(40) as usize,
        _ => LONGEST_IMAGE,
    }
}

/// A load of the floor's image, good or damaged. For a floor without one the
/// write that is refused.
pub fn loading(rng: &mut Rng, floor: &Floor) -> Call {
    let Some(mut bytes) = image(floor) else {
        return Call::Write {
            size: LONGEST_IMAGE,
        };
    };
    if rng.chance(1, 2) {
        images::damage(rng, &mut bytes);
    }
    Call::Load { bytes }
}

/// Settings that let sixteen canisters stand on a tile.
fn dense(rng: &mut Rng) -> Settings {
    loop {
        let mut settings = random::settings(rng);
        if settings.span() / settings.spacing() as u16 == 3 {
            if rng.chance(1, 2) {
                (settings.columns, settings.rows) = (8, 8);
                let hoppers = rng.pick(&[1, 1, 1, 2, 3, 4]);
                settings.hoppers = random::hoppers(rng, &settings, hoppers);
                settings.sources = !settings.hoppers;
            }
            return settings;
        }
    }
}

/// Every tile but the hoppers filled with sixteen canisters in lines.
pub fn packed_floor(rng: &mut Rng) -> Floor {
    let settings = dense(rng);
    let near = rng.chance(1, 2);
    packed_with(rng, settings, near)
}

/// A packed floor with numbers near the last one booked, or spread out.
pub fn packed_with(rng: &mut Rng, settings: Settings, near: bool) -> Floor {
    let mut floor = oracle::fresh(settings).floor;
    let tiles = settings.tile_count();
    let held = (tiles - settings.hopper_count()) * PLACES;
    let step = match near || held == 0 {
        true => 1,
        false => u64::from(u32::MAX) / held as u64,
    };
    let mut numbers: Vec<u32> = (0..held as u64)
        .map(|at| (at * step + rng.below(step) + 1) as u32)
        .collect();
    let last = numbers.last().copied().unwrap_or(0);
    for end in (1..numbers.len()).rev() {
        numbers.swap(end, rng.below(end as u64 + 1) as usize);
    }
    let spacing = settings.spacing() as u16;
    let slack = settings.span() - 3 * spacing;
    for tile in (0..tiles).filter(|tile| !settings.is_hopper(*tile)) {
        let mut mine: Vec<u32> = numbers.drain(..PLACES).collect();
        mine.sort_unstable();
        let shift = rng.pick(&[0, slack, slack / 2]);
        for (at, number) in mine.into_iter().enumerate() {
            floor.canisters[tile * PLACES + at] = Canister {
                number,
                a: (at % 4) as u16 * spacing + shift,
                b: (at / 4) as u16 * spacing + shift,
            };
        }
        floor.tiles[tile].count = PLACES as u8;
    }
    floor.counters = Counters {
        last,
        booked: held as u32,
        ..Counters::ZERO
    };
    floor
}

/// A fresh floor of 8 x 8 tiles with room for sixteen canisters each.
pub fn roomy_floor(rng: &mut Rng) -> Floor {
    let mut settings = dense(rng);
    (settings.columns, settings.rows) = (8, 8);
    settings.hoppers = random::hoppers(rng, &settings, 1);
    settings.sources = !settings.hoppers;
    oracle::fresh(settings).floor
}

/// A packed floor of two tiles with up to three places of the fill tile left,
/// and none but those where no millimetre is to spare.
pub fn nearly_full_floor(rng: &mut Rng) -> Floor {
    let mut settings = Settings {
        columns: 2,
        rows: 1,
        hoppers: only(1),
        sources: only(0),
        ..dense(rng)
    };
    if rng.chance(1, 2) {
        settings.width = 3 * settings.spacing() as u16 + settings.length;
    }
    let near = rng.chance(1, 2);
    let mut floor = packed_with(rng, settings, near);
    for left in (PLACES - rng.below(4) as usize..PLACES).rev() {
        let at = rng.range(0, left as u64) as usize;
        floor.canisters[at..=left].rotate_left(1);
        floor.canisters[left] = Canister::ZERO;
        floor.tiles[0].count = left as u8;
        floor.counters.booked = left as u32;
    }
    floor
}

/// A tile in the middle of 3 x 3 with full neighbours: the hopper, where four
/// sides want, or a tile on the way between stopped corners, where three do.
/// At times the corners, or some of them, are hoppers too.
pub fn crowded_floor(rng: &mut Rng) -> Floor {
    let hopper = rng.pick(&[4, 4, 1, 3, 5, 7]);
    let corners = match rng.below(4) {
        0 => rng.draw() & (only(0) | only(2) | only(8)),
        _ => 0,
    };
    let hoppers = only(hopper) | corners;
    let settings = Settings {
        columns: 3,
        rows: 3,
        hoppers,
        sources: 0x1ff & !hoppers,
        ..dense(rng)
    };
    let mut floor = packed_with(rng, settings, true);
    if hopper != 4 && corners == 0 {
        for corner in [0, 2, 6, 8] {
            floor.tiles[corner].running = 0;
        }
    }
    floor
}

/// Two tiles that face each other by stale distances, each with room to grant.
pub fn facing_floor(rng: &mut Rng) -> Floor {
    let upright = rng.chance(1, 2);
    let long = rng.range(5, 8) as u8;
    let settings = Settings {
        columns: if upright { 1 } else { long },
        rows: if upright { long } else { 1 },
        hoppers: facing_hoppers(rng),
        sources: 0,
        width: 100,
        length: 20,
        gap: rng.range(1, 10) as u16,
        travel: rng.range(1, 19) as u16,
    };
    let mut floor = oracle::fresh(settings).floor;
    let one = rng.range(2, u64::from(long) - 2) as usize;
    let distance = rng.range(1, u64::from(long) - 2) as u8;
    let (on, back) = if upright { (3, 2) } else { (4, 1) };
    for (tile, next, number) in [(one, on, 1), (one + 1, back, 2)] {
        floor.tiles[tile] = Tile {
            distance,
            next,
            count: 1,
            ..floor.tiles[tile]
        };
        floor.canisters[tile * PLACES] = Canister {
            number,
            a: rng.range(25, 55) as u16,
            b: rng.range(25, 55) as u16,
        };
    }
    floor.counters = Counters {
        last: 2,
        booked: 2,
        ..Counters::ZERO
    };
    floor
}

/// The first tile of a line, at times with the one beside it.
fn facing_hoppers(rng: &mut Rng) -> u64 {
    match rng.chance(1, 4) {
        true => only(0) | only(1),
        false => only(0),
    }
}

/// Two to four hoppers along an edge of a packed floor, so that several
/// deliver in one round.
pub fn delivering_floor(rng: &mut Rng) -> Floor {
    let count = rng.range(2, MAX_HOPPERS as u64) as u8;
    let deep = rng.range(2, 4) as u8;
    let upright = rng.chance(1, 2);
    let (columns, rows) = if upright {
        (deep, count)
    } else {
        (count, deep)
    };
    let step = if upright { 1 } else { rows };
    let across = if upright { rows } else { 1 };
    let edge = rng.pick(&[0, deep - 1]) * across;
    let hoppers = (0..count).map(|at| only(edge + at * step)).sum();
    let mut settings = Settings {
        columns,
        rows,
        hoppers,
        ..dense(rng)
    };
    settings.sources = settings.all_tiles() & !hoppers;
    let near = rng.chance(1, 2);
    packed_with(rng, settings, near)
}

/// Damages a well-formed floor so that it must be refused by 30. False if
/// the damage drawn doesn't suit the floor, which is then as it was.
pub fn known_damage(rng: &mut Rng, floor: &mut Floor) -> bool {
    let tiles = floor.settings.tile_count();
    let any = rng.below(tiles as u64) as usize;
    let byte = rng.range(1, 255) as u8;
    match rng.below(34) {
        kind @ 0..=8 => damage_tile(rng, floor, kind, any, byte),
        kind @ 9..=18 => damage_places(rng, floor, kind, any),
        19 => repeat_number(rng, floor),
        25 => face_outside(rng, floor),
        kind => damage_rest(rng, floor, kind, any, byte),
    }
}

/// Damages the head of a hopper or of a tile.
fn damage_tile(rng: &mut Rng, floor: &mut Floor, kind: u64, any: usize, byte: u8) -> bool {
    let tiles = floor.settings.tile_count() as u64;
    let hoppers: Vec<usize> = floor.settings.hopper_tiles().collect();
    let hopper = rng.pick(&hoppers);
    match kind {
        0 => floor.tiles[hopper].running = 0,
        1 => floor.tiles[hopper].distance = byte,
        2 => floor.tiles[hopper].next = rng.range(1, 4) as u8,
        3 => floor.tiles[any].running = rng.range(2, 255) as u8,
        4 if !hoppers.contains(&any) => floor.tiles[any].distance = 0,
        5 => floor.tiles[any].distance = rng.range(tiles, 254) as u8,
        6 => floor.tiles[any].next = rng.range(5, 255) as u8,
        7 => floor.tiles[any].token = rng.range(5, 255) as u8,
        8 => floor.tiles[any].count = rng.range(17, 255) as u8,
        _ => return false,
    }
    true
}

/// Damages a tile's places, or what stands where no tile is.
fn damage_places(rng: &mut Rng, floor: &mut Floor, kind: u64, any: usize) -> bool {
    let tiles = floor.settings.tile_count();
    let span = floor.settings.span();
    let count = usize::from(floor.tiles[any].count);
    let first = any * PLACES;
    match kind {
        9 if count > 0 => floor.tiles[any].count -= 1,
        10 if count < 16 => floor.tiles[any].count += 1,
        11 if count > 0 => floor.canisters[first].a = span + 1,
        12 if count > 0 => floor.canisters[first + count - 1].b = span + 1,
        13 if count > 0 => floor.canisters[first].number = 0,
        14 if count > 1 => floor.canisters.swap(first, first + 1),
        15 if count > 1 => {
            let place = floor.canisters[first];
            let other = &mut floor.canisters[first + 1];
            (other.a, other.b) = (place.a, place.b);
        }
        16 if count < 16 => {
            let place = first + rng.range(count as u64, 15) as usize;
            match rng.below(3) {
                0 => floor.canisters[place].number = 1,
                1 => floor.canisters[place].a = 1,
                _ => floor.canisters[place].b = 1,
            }
        }
        17 if tiles < 64 => damage_absent(rng, floor),
        18 if tiles < 64 => {
            let place = rng.range((tiles * PLACES) as u64, 1_023) as usize;
            floor.canisters[place].b = 1;
        }
        _ => return false,
    }
    true
}

/// Gives a tile that the floor doesn't have one field.
fn damage_absent(rng: &mut Rng, floor: &mut Floor) {
    let tiles = floor.settings.tile_count() as u64;
    let tile = rng.range(tiles, 63) as usize;
    match rng.below(5) {
        0 => floor.tiles[tile].running = 1,
        1 => floor.tiles[tile].distance = NONE,
        2 => floor.tiles[tile].next = 1,
        3 => floor.tiles[tile].token = 1,
        _ => floor.tiles[tile].count = 1,
    }
}

/// Damages the counters or the settings.
fn damage_rest(rng: &mut Rng, floor: &mut Floor, kind: u64, any: usize, byte: u8) -> bool {
    let tiles = floor.settings.tile_count() as u64;
    let count = usize::from(floor.tiles[any].count);
    let hoppers = floor.settings.hopper_count();
    let held = floor.counters.booked - floor.counters.delivered_in_all() as u32;
    let counters = &mut floor.counters;
    let rank = rng.below(hoppers as u64) as usize;
    match kind {
        20 if count > 0 => {
            counters.last = floor.canisters[any * PLACES + count - 1].number - 1;
        }
        21 => counters.booked = counters.booked.wrapping_add(byte.into()),
        22 => counters.delivered[rank] = counters.delivered[rank].wrapping_add(byte.into()),
        23 if counters.last < u32::MAX => {
            counters.booked = counters.last + 1;
            counters.delivered = random::parts(rng, counters.booked - held, hoppers);
        }
        24 if held > 0 => {
            counters.booked = held - 1;
            counters.delivered = random::parts(rng, u32::MAX, hoppers);
        }
        26 if tiles < 64 => floor.settings.hoppers |= only(rng.range(tiles, 63) as u8),
        27 => floor.settings.sources |= 1 << floor.settings.hopper_tiles().nth(rank).unwrap_or(0),
        28 => floor.settings.travel = floor.settings.length,
        29 => floor.settings.gap = u16::MAX - rng.below(300) as u16,
        30 if hoppers < MAX_HOPPERS && counters.delivered[rank] > 0 => {
            let unused = rng.range(hoppers as u64, MAX_HOPPERS as u64 - 1) as usize;
            counters.delivered.swap(rank, unused);
        }
        31 => floor.settings.hoppers ^= only(any as u8),
        32 => return fifth_hopper(floor),
        33 => no_hopper(floor),
        _ => return false,
    }
    true
}

/// Makes hoppers of empty tiles until there are five, sound but for that.
fn fifth_hopper(floor: &mut Floor) -> bool {
    let settings = &mut floor.settings;
    let tiles = 0..settings.tile_count();
    let plain = |tile: &usize| floor.tiles[*tile].count == 0 && !settings.is_hopper(*tile);
    let more = MAX_HOPPERS + 1 - settings.hopper_count();
    let empty: Vec<usize> = tiles.filter(plain).take(more).collect();
    if empty.len() < more {
        return false;
    }
    for tile in empty {
        settings.hoppers |= 1 << tile;
        settings.sources &= !(1 << tile);
        floor.tiles[tile] = Tile {
            distance: 0,
            ..Tile::IDLE
        };
    }
    true
}

/// Makes plain tiles of all hoppers.
fn no_hopper(floor: &mut Floor) {
    for hopper in floor.settings.hopper_tiles() {
        floor.tiles[hopper].distance = NONE;
    }
    floor.settings.hoppers = 0;
    let gone = floor.counters.delivered_in_all() as u32;
    floor.counters.booked -= gone;
    floor.counters.delivered = [0; MAX_HOPPERS];
}

/// Gives a canister the number of one on another tile, in rising order still.
fn repeat_number(rng: &mut Rng, floor: &mut Floor) -> bool {
    let tiles = floor.settings.tile_count();
    let held: Vec<usize> = (0..tiles).filter(|t| floor.tiles[*t].count > 0).collect();
    if held.len() < 2 {
        return false;
    }
    let (one, other) = (rng.pick(&held), rng.pick(&held));
    if one == other {
        return false;
    }
    let end = |tile: usize| tile * PLACES + usize::from(floor.tiles[tile].count) - 1;
    let (low, high) = match floor.canisters[end(one)].number < floor.canisters[end(other)].number {
        true => (end(one), end(other)),
        false => (end(other), end(one)),
    };
    floor.canisters[low].number = floor.canisters[high].number;
    true
}

/// Turns an arrow or a turn towards no tile.
fn face_outside(rng: &mut Rng, floor: &mut Floor) -> bool {
    let grid = Grid::of(&floor.settings);
    let spots: Vec<_> = grid.spots().collect();
    let spot = rng.pick(&spots);
    let side = rng.pick(&Side::ALL);
    if grid.neighbour(spot, side).is_some() {
        return false;
    }
    let tile = &mut floor.tiles[spot.tile];
    match tile.next != 0 && rng.chance(1, 2) {
        true => tile.next = side.code(),
        false => tile.token = side.code(),
    }
    true
}
