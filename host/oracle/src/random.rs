//! Repeatable random settings, floors, calls and garbage.

use crate::grid::{Grid, Side, Spot};
use crate::refusal;
use crate::types::{
    Canister, Counters, Floor, Settings, Tile, MAX_HOPPERS, MAX_TILES, NONE, NO_SIDE, PLACES,
};
use crate::{check, settings_refusal};

mod calls;
mod garbage;
mod layouts;

pub use calls::{any_tile, call, refused_call, Call};
use garbage::spoil_settings;
pub use garbage::{garbage_floor, nearly_sound_floor, spoil};
pub use layouts::{bad_name, layouts, name, name_for, still_call};

/// Splitmix64.
#[derive(Clone, Debug)]
pub struct Rng {
    state: u64,
}

impl Rng {
    pub fn new(seed: u64) -> Rng {
        Rng { state: seed }
    }

    pub fn draw(&mut self) -> u64 {
        self.state = self.state.wrapping_add(0x9e37_79b9_7f4a_7c15);
        let mut z = self.state;
        z = (z ^ (z >> 30)).wrapping_mul(0xbf58_476d_1ce4_e5b9);
        z = (z ^ (z >> 27)).wrapping_mul(0x94d0_49bb_1331_11eb);
        z ^ (z >> 31)
    }

    /// 0 to `end` - 1; `end` isn't 0.
    pub fn below(&mut self, end: u64) -> u64 {
        self.draw() % end
    }

    /// `low` to `high`, both included; `low` is at most `high`.
    pub fn range(&mut self, low: u64, high: u64) -> u64 {
        match (high - low).checked_add(1) {
            Some(size) => low + self.below(size),
            None => self.draw(),
        }
    }

    /// True in about `part` of `whole` cases.
    pub fn chance(&mut self, part: u64, whole: u64) -> bool {
        self.below(whole) < part
    }

    pub fn pick<T: Copy>(&mut self, choices: &[T]) -> T {
        choices[self.below(choices.len() as u64) as usize]
    }

    fn u16(&mut self, low: u16, high: u16) -> u16 {
        self.range(low.into(), high.into()) as u16
    }

    fn u32(&mut self, low: u32, high: u32) -> u32 {
        self.range(low.into(), high.into()) as u32
    }

    fn shuffle<T>(&mut self, items: &mut [T]) {
        for end in (1..items.len()).rev() {
            items.swap(end, self.below(end as u64 + 1) as usize);
        }
    }
}

/// Settings that pass 1 to 3, ordinary and extreme.
pub fn settings(rng: &mut Rng) -> Settings {
    let (columns, rows) = grid(rng);
    let (width, length, gap, travel) = measures(rng);
    let bare = Settings {
        columns,
        rows,
        hoppers: 0,
        sources: 0,
        width,
        length,
        gap,
        travel,
    };
    let count = rng.pick(&[1, 1, 1, 2, 2, 3, 4]);
    let hoppers = hoppers(rng, &bare, count);
    let others = bare.all_tiles() & !hoppers;
    let sources = match rng.below(8) {
        0 => 0,
        1..=4 => others,
        _ => rng.draw() & others,
    };
    Settings {
        hoppers,
        sources,
        ..bare
    }
}

/// A set of so many tiles, or of all where the floor has fewer. The next one
/// is anywhere, or as often beside the last.
pub fn hoppers(rng: &mut Rng, settings: &Settings, count: u32) -> u64 {
    let tiles = settings.tile_count() as u64;
    let mut set = 0u64;
    let mut last = rng.below(tiles);
    while set.count_ones() < count.min(tiles as u32) {
        set |= 1 << last;
        last = match rng.chance(1, 2) {
            true => rng.below(tiles),
            false => (last + rng.pick(&[1, u64::from(settings.rows)])) % tiles,
        };
    }
    set
}

fn grid(rng: &mut Rng) -> (u8, u8) {
    match rng.below(10) {
        0 => rng.pick(&[(2, 1), (1, 2)]),
        1 => (8, 8),
        2 => (1, rng.range(2, 8) as u8),
        3 => (rng.range(2, 8) as u8, 1),
        4 | 5 => (rng.range(2, 3) as u8, rng.range(2, 3) as u8),
        _ => (rng.range(2, 8) as u8, rng.range(1, 8) as u8),
    }
}

/// U, l, r and v.
fn measures(rng: &mut Rng) -> (u16, u16, u16, u16) {
    match rng.below(8) {
        0 => (3, 2, 0, 1),
        1 => (100, 30, 10, 20),
        2 => {
            let width = rng.u16(8, 60);
            dense_measures(rng, width)
        }
        3 => dense_measures(rng, 60_000),
        4 => loose_measures(rng, 60_000),
        5 => {
            let width = rng.u16(3, 60_000);
            loose_measures(rng, width)
        }
        _ => {
            let width = rng.u16(3, 120);
            loose_measures(rng, width)
        }
    }
}

/// Four canisters along an axis where the width allows it.
fn dense_measures(rng: &mut Rng, width: u16) -> (u16, u16, u16, u16) {
    let (low, high) = (width / 5 + 1, width / 4);
    if low > high {
        return loose_measures(rng, width);
    }
    let length = rng.u16(low, high);
    let most = (width - length) / 3 - length;
    let gap = rng.u16(0, most);
    (width, length, gap, travel(rng, length))
}

fn loose_measures(rng: &mut Rng, width: u16) -> (u16, u16, u16, u16) {
    let length = match rng.below(6) {
        0 => 2,
        1 => width - 1,
        _ => rng.u16(2, width - 1),
    };
    let least = ((width - length) / 4 + 1).saturating_sub(length);
    let most = width - 1 - length;
    let gap = match rng.below(4) {
        0 | 1 => least,
        2 => most,
        _ => rng.u16(least, most),
    };
    (width, length, gap, travel(rng, length))
}

fn travel(rng: &mut Rng, length: u16) -> u16 {
    match rng.below(6) {
        0 => 1,
        1 | 2 => length - 1,
        _ => rng.u16(1, length - 1),
    }
}

/// Settings that may break one of the rules.
pub fn any_settings(rng: &mut Rng) -> Settings {
    let mut settings = settings(rng);
    for _ in 0..rng.below(3) {
        spoil_settings(rng, &mut settings);
    }
    settings
}

/// Any floor that is well formed, settled or not.
pub fn floor(rng: &mut Rng) -> Floor {
    let settings = settings(rng);
    floor_with(rng, settings)
}

/// Any well-formed floor with the given settings, which must pass 1 to 3.
pub fn floor_with(rng: &mut Rng, settings: Settings) -> Floor {
    debug_assert_eq!(settings_refusal(&settings), refusal::ACCEPTED);
    let mut floor = Floor {
        settings,
        ..Floor::ZERO
    };
    let stops = rng.pick(&[0, 0, 1, 2, 5, 8]);
    let fill = rng.pick(&[0, 1, 3, 6, 10]);
    for spot in Grid::of(&settings).spots() {
        let hopper = settings.is_hopper(spot.tile);
        let running = hopper || !rng.chance(stops, 10);
        floor.tiles[spot.tile] = tile(rng, &settings, spot, running);
        if !hopper && rng.chance(fill, 10) {
            place_canisters(rng, &mut floor, spot.tile);
        }
    }
    number_canisters(rng, &mut floor);
    floor.layouts = layouts(rng, &floor);
    floor
}

fn tile(rng: &mut Rng, settings: &Settings, spot: Spot, running: bool) -> Tile {
    let distance = match settings.is_hopper(spot.tile) {
        true => 0,
        false if !running || rng.chance(1, 5) => NONE,
        false => rng.range(1, settings.tile_count() as u64 - 1) as u8,
    };
    let next = match distance {
        0 | NONE => NO_SIDE,
        _ => facing(rng, settings, spot),
    };
    let token = match running && !rng.chance(1, 3) {
        true => facing(rng, settings, spot),
        false => NO_SIDE,
    };
    Tile {
        running: running.into(),
        distance,
        next,
        token,
        count: 0,
    }
}

/// A side with a tile behind it; there is one, since C is at least 2.
fn facing(rng: &mut Rng, settings: &Settings, spot: Spot) -> u8 {
    loop {
        let side = rng.pick(&Side::ALL);
        if Grid::of(settings).neighbour(spot, side).is_some() {
            return side.code();
        }
    }
}

/// Fills a tile with canisters that have no number yet.
fn place_canisters(rng: &mut Rng, floor: &mut Floor, tile: usize) {
    if rng.chance(1, 2) {
        pack_in_lines(rng, floor, tile);
    } else {
        place_freely(rng, floor, tile);
    }
}

fn add_place(floor: &mut Floor, tile: usize, a: u16, b: u16) {
    let count = &mut floor.tiles[tile].count;
    floor.canisters[tile * PLACES + usize::from(*count)] = Canister { number: 0, a, b };
    *count += 1;
}

/// Lines along one axis, each with its own places along the other.
fn pack_in_lines(rng: &mut Rng, floor: &mut Floor, tile: usize) {
    let keep = rng.pick(&[4, 7, 10, 10]);
    let turned = rng.chance(1, 2);
    let (lines, count) = line(rng, &floor.settings);
    for across in &lines[..count] {
        let (places, count) = line(rng, &floor.settings);
        for along in &places[..count] {
            if rng.chance(keep, 10) {
                let (a, b) = if turned {
                    (*along, *across)
                } else {
                    (*across, *along)
                };
                add_place(floor, tile, a, b);
            }
        }
    }
}

/// As many places on one axis as spacing allows, at least d apart.
fn line(rng: &mut Rng, settings: &Settings) -> ([u16; 4], usize) {
    let spacing = settings.spacing() as u16;
    let steps = settings.span() / spacing;
    let slack = settings.span() - steps * spacing;
    let count = usize::from(steps) + 1;
    let mut places = [0; 4];
    for place in &mut places[..count] {
        *place = match rng.below(4) {
            0 => 0,
            1 => slack,
            _ => rng.u16(0, slack),
        };
    }
    places[..count].sort_unstable();
    for (at, place) in places[..count].iter_mut().enumerate() {
        *place += at as u16 * spacing;
    }
    (places, count)
}

fn place_freely(rng: &mut Rng, floor: &mut Floor, tile: usize) {
    for _ in 0..rng.range(1, 40) {
        let canister = Canister {
            number: 0,
            a: coordinate(rng, &floor.settings),
            b: coordinate(rng, &floor.settings),
        };
        let spacing = floor.settings.spacing();
        if floor
            .members(tile)
            .iter()
            .all(|other| other.clear_of(&canister, spacing))
        {
            add_place(floor, tile, canister.a, canister.b);
        }
    }
}

/// 0 to U - l, more often at the ends and at whole multiples of d.
fn coordinate(rng: &mut Rng, settings: &Settings) -> u16 {
    let span = settings.span();
    let spacing = settings.spacing() as u16;
    match rng.below(6) {
        0 => 0,
        1 => span,
        2 => rng.u16(0, span / spacing) * spacing,
        3 => span - rng.u16(0, span / spacing) * spacing,
        _ => rng.u16(0, span),
    }
}

/// Gives all canisters their numbers and the floor its counters.
fn number_canisters(rng: &mut Rng, floor: &mut Floor) {
    let tiles = floor.settings.tile_count();
    let held = (0..tiles).map(|tile| floor.members(tile).len()).sum();
    let mut numbers = [0; MAX_TILES * PLACES];
    let most = draw_numbers(rng, &mut numbers[..held]);
    rng.shuffle(&mut numbers[..held]);
    let mut at = 0;
    for tile in 0..tiles {
        let count = floor.members(tile).len();
        let members = &mut floor.canisters[tile * PLACES..][..count];
        for canister in members.iter_mut() {
            canister.number = numbers[at];
            at += 1;
        }
        members.sort_unstable_by_key(|canister| canister.number);
    }
    floor.counters = counters(rng, held as u32, most, floor.settings.hopper_count());
}

/// Fills in rising numbers above 0 and gives the greatest, or 0.
fn draw_numbers(rng: &mut Rng, numbers: &mut [u32]) -> u32 {
    let stretch = rng.pick(&[0, 0, 3, 1_000]);
    let mut most = 0;
    for number in numbers.iter_mut() {
        most += 1 + rng.u32(0, stretch);
        *number = most;
    }
    let rise = match rng.below(6) {
        0..=3 => 0,
        4 => rng.u32(0, u32::MAX - most),
        _ => u32::MAX - most,
    };
    for number in numbers.iter_mut() {
        *number += rise;
    }
    numbers.last().copied().unwrap_or(0)
}

fn counters(rng: &mut Rng, held: u32, most: u32, hoppers: usize) -> Counters {
    let last = match rng.below(8) {
        0..=3 => most,
        4..=6 => most + rng.u32(0, 50.min(u32::MAX - most)),
        _ => rng.u32(most, u32::MAX),
    };
    let gone = match rng.below(4) {
        0 => 0,
        1 => last - held,
        _ => rng.u32(0, last - held),
    };
    Counters {
        last,
        booked: gone + held,
        delivered: parts(rng, gone, hoppers),
    }
}

/// A number in so many parts, one to four, then zeros.
pub fn parts(rng: &mut Rng, whole: u32, count: usize) -> [u32; MAX_HOPPERS] {
    let mut parts = [0; MAX_HOPPERS];
    let mut left = whole;
    for part in &mut parts[1..count] {
        *part = match rng.below(4) {
            0 => 0,
            1 => left,
            _ => rng.u32(0, left),
        };
        left -= *part;
    }
    parts[0] = left;
    parts
}
