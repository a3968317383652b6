//! Memory shape of the floor and the answers of the calls.

use crate::faults::{self, Fault};
use crate::refusal;

/// Most tiles a floor can have.
pub const MAX_TILES: usize = 64;
/// Most hoppers a floor can have.
pub const MAX_HOPPERS: usize = 4;
/// Canister places of one tile.
pub const PLACES: usize = 16;
/// Most layouts that a floor keeps.
pub const MAX_LAYOUTS: usize = 8;
/// The distance "none".
pub const NONE: u8 = 255;
/// The side "none".
pub const NO_SIDE: u8 = 0;

#[repr(C)]
#[derive(Clone, Copy, PartialEq, Eq, Debug)]
pub struct Canister {
    pub number: u32,
    pub a: u16,
    pub b: u16,
}

/// An entry of a list of bookings.
#[repr(C)]
#[derive(Clone, Copy, PartialEq, Eq, Debug)]
pub struct Booking {
    pub tile: u32,
    pub canister: Canister,
    /// What the single booking would answer.
    pub answer: u8,
}

#[repr(C)]
#[derive(Clone, Copy, PartialEq, Eq, Debug)]
pub struct Tile {
    /// 1 running, 0 stopped.
    pub running: u8,
    /// Hops to the nearest hopper, 255 for none.
    pub distance: u8,
    /// The paper's arrow.
    pub next: u8,
    /// The paper's turn.
    pub token: u8,
    /// Canisters on the tile.
    pub count: u8,
}

#[repr(C)]
#[derive(Clone, Copy, PartialEq, Eq, Debug)]
pub struct Settings {
    /// W.
    pub columns: u8,
    /// H.
    pub rows: u8,
    /// The hopper set.
    pub hoppers: u64,
    /// The fill set.
    pub sources: u64,
    /// U, side of a tile.
    pub width: u16,
    /// l, side of a canister.
    pub length: u16,
    /// r, least gap.
    pub gap: u16,
    /// v, travel in a round.
    pub travel: u16,
}

#[repr(C)]
#[derive(Clone, Copy, PartialEq, Eq, Debug)]
pub struct Counters {
    pub last: u32,
    pub booked: u32,
    /// One for each hopper in tile order, then zeros.
    pub delivered: [u32; MAX_HOPPERS],
}

/// A named set of the tiles that ran when it was kept.
#[repr(C)]
#[derive(Clone, Copy, PartialEq, Eq, Debug)]
pub struct Layout {
    /// The first letter in the highest byte, zero filled.
    pub name: u64,
    pub set: u64,
}

/// Canisters of tile t are at places 16 t up to 16 t + count.
#[repr(C)]
#[derive(Clone, Copy, PartialEq, Eq, Debug)]
pub struct Floor {
    pub settings: Settings,
    pub counters: Counters,
    pub tiles: [Tile; MAX_TILES],
    pub canisters: [Canister; MAX_TILES * PLACES],
    /// By rising name, then zeros.
    pub layouts: [Layout; MAX_LAYOUTS],
}

/// What one hopper took in.
#[repr(C)]
#[derive(Clone, Copy, PartialEq, Eq, Debug)]
pub struct Delivery {
    /// Rising, then zeros.
    pub numbers: [u32; 4],
    pub count: u8,
}

#[repr(C)]
#[derive(Clone, Copy, PartialEq, Eq, Debug)]
pub struct Report {
    /// The side each tile granted, 0 for none.
    pub grants: [u8; MAX_TILES],
    /// Why each tile stood, or that it moved; see `reason`.
    pub reasons: [u8; MAX_TILES],
    /// Beside reason 5 the missing millimetres, else 0.
    pub missing: [u16; MAX_TILES],
    /// One for each hopper in tile order, then zeros.
    pub deliveries: [Delivery; MAX_HOPPERS],
}

#[repr(C)]
#[derive(Clone, Copy, PartialEq, Eq, Debug)]
pub struct Answer {
    pub refusal: u8,
    pub floor: Floor,
}

/// The answer of a booking without a place.
#[repr(C)]
#[derive(Clone, Copy, PartialEq, Eq, Debug)]
pub struct PlaceAnswer {
    pub refusal: u8,
    pub floor: Floor,
    /// The place that the canister took.
    pub a: u16,
    pub b: u16,
}

#[repr(C)]
#[derive(Clone, Copy, PartialEq, Eq, Debug)]
pub struct RoundAnswer {
    pub refusal: u8,
    pub floor: Floor,
    pub report: Report,
}

#[repr(C)]
#[derive(Clone, Copy, PartialEq, Eq, Debug)]
pub struct Reading {
    pub refusal: u8,
    pub tile: Tile,
    pub members: [Canister; PLACES],
}

#[repr(C)]
#[derive(Clone, Copy, PartialEq, Eq, Debug)]
pub struct WriteAnswer {
    pub refusal: u8,
    pub length: u32,
}

impl Canister {
    pub const ZERO: Canister = Canister {
        number: 0,
        a: 0,
        b: 0,
    };

    /// Whether the two differ by at least `spacing` in a or in b.
    pub fn clear_of(&self, other: &Canister, spacing: u32) -> bool {
        u32::from(self.a.abs_diff(other.a)) >= spacing
            || u32::from(self.b.abs_diff(other.b)) >= spacing
    }
}

impl Tile {
    pub const ZERO: Tile = Tile {
        running: 0,
        distance: 0,
        next: 0,
        token: 0,
        count: 0,
    };

    /// A running tile that knows no way yet.
    pub const IDLE: Tile = Tile {
        running: 1,
        distance: NONE,
        next: NO_SIDE,
        token: NO_SIDE,
        count: 0,
    };
}

impl Settings {
    pub const ZERO: Settings = Settings {
        columns: 0,
        rows: 0,
        hoppers: 0,
        sources: 0,
        width: 0,
        length: 0,
        gap: 0,
        travel: 0,
    };

    /// C, the number of tiles.
    pub fn tile_count(&self) -> usize {
        usize::from(self.columns) * usize::from(self.rows)
    }

    /// d, the least spacing.
    pub fn spacing(&self) -> u32 {
        match faults::on(Fault::SpacingWraps) {
            true => u32::from(self.length.wrapping_add(self.gap)),
            false => u32::from(self.length) + u32::from(self.gap),
        }
    }

    /// U - l, the greatest coordinate of a canister; 0 for bad measures.
    pub fn span(&self) -> u16 {
        self.width.saturating_sub(self.length)
    }

    pub fn is_source(&self, tile: usize) -> bool {
        holds(self.sources, tile)
    }

    pub fn is_hopper(&self, tile: usize) -> bool {
        holds(self.hoppers, tile)
    }

    pub fn hopper_count(&self) -> usize {
        self.hoppers.count_ones() as usize
    }

    /// The hoppers in tile order, those off the floor too.
    pub fn hopper_tiles(self) -> impl Iterator<Item = usize> {
        (0..MAX_TILES).filter(move |tile| self.is_hopper(*tile))
    }

    /// A hopper's place among the hoppers.
    pub fn rank(&self, tile: usize) -> Option<usize> {
        let lower = |tile: usize| self.hoppers & ((1 << tile) - 1);
        self.is_hopper(tile)
            .then(|| lower(tile).count_ones() as usize)
    }

    /// The floor's tiles as a set; C is 1 to 64.
    pub fn all_tiles(&self) -> u64 {
        u64::MAX >> (MAX_TILES - self.tile_count())
    }
}

/// The set of one tile; empty for a number that no floor has.
pub fn only(tile: u8) -> u64 {
    1u64.checked_shl(tile.into()).unwrap_or(0)
}

pub(crate) fn holds(set: u64, tile: usize) -> bool {
    tile < MAX_TILES && set >> tile & 1 == 1
}

impl Counters {
    pub const ZERO: Counters = Counters {
        last: 0,
        booked: 0,
        delivered: [0; MAX_HOPPERS],
    };

    /// Deliveries over all hoppers.
    pub fn delivered_in_all(&self) -> u64 {
        self.delivered.iter().map(|count| u64::from(*count)).sum()
    }
}

impl Layout {
    pub const ZERO: Layout = Layout { name: 0, set: 0 };

    /// The bytes of the name, first letter first.
    pub fn letters(&self) -> [u8; 8] {
        self.name.to_be_bytes()
    }
}

impl Floor {
    pub const ZERO: Floor = Floor {
        settings: Settings::ZERO,
        counters: Counters::ZERO,
        tiles: [Tile::ZERO; MAX_TILES],
        canisters: [Canister::ZERO; MAX_TILES * PLACES],
        layouts: [Layout::ZERO; MAX_LAYOUTS],
    };

    /// Layouts before the last place that isn't zero, that one included.
    pub fn layout_count(&self) -> usize {
        let last = self.layouts.iter().rposition(|at| *at != Layout::ZERO);
        last.map_or(0, |last| last + 1)
    }

    /// All sixteen places of a tile.
    pub fn places(&self, tile: usize) -> &[Canister] {
        &self.canisters[tile * PLACES..][..PLACES]
    }

    /// The canisters on a tile.
    pub fn members(&self, tile: usize) -> &[Canister] {
        let count = usize::from(self.tiles[tile].count).min(PLACES);
        &self.places(tile)[..count]
    }

    /// Puts a canister among those of a tile, by rising number.
    pub(crate) fn insert(&mut self, tile: usize, canister: Canister) {
        let count = usize::from(self.tiles[tile].count);
        let places = &mut self.canisters[tile * PLACES..][..PLACES];
        let at = places[..count]
            .iter()
            .rposition(|other| other.number < canister.number)
            .map_or(0, |before| before + 1);
        places.copy_within(at..count, at + 1);
        places[at] = canister;
        self.tiles[tile].count += 1;
    }
}

impl Delivery {
    pub const ZERO: Delivery = Delivery {
        numbers: [0; 4],
        count: 0,
    };
}

impl Report {
    pub const ZERO: Report = Report {
        grants: [NO_SIDE; MAX_TILES],
        reasons: [0; MAX_TILES],
        missing: [0; MAX_TILES],
        deliveries: [Delivery::ZERO; MAX_HOPPERS],
    };

    /// The numbers delivered at the hopper of a rank.
    pub fn at(&self, rank: usize) -> &[u32] {
        let delivery = &self.deliveries[rank];
        &delivery.numbers[..usize::from(delivery.count).min(4)]
    }

    /// The numbers delivered at any hopper, hopper by hopper.
    pub fn delivered(&self) -> impl Iterator<Item = u32> + '_ {
        (0..MAX_HOPPERS).flat_map(|rank| self.at(rank)).copied()
    }
}

impl Answer {
    pub(crate) fn accepted(floor: Floor) -> Answer {
        Answer {
            refusal: refusal::ACCEPTED,
            floor,
        }
    }

    pub(crate) fn refused(refusal: u8, floor: &Floor) -> Answer {
        Answer {
            refusal,
            floor: *floor,
        }
    }
}

impl Reading {
    pub(crate) fn refused(refusal: u8) -> Reading {
        Reading {
            refusal,
            tile: Tile::ZERO,
            members: [Canister::ZERO; PLACES],
        }
    }
}
