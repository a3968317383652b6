//! The structs of include/ceromby.h.

use core::fmt;

use crate::refusal::{accepted, Refusal};

/// Most tiles a floor can have.
pub const MAX_TILES: usize = 64;
/// Most hoppers a floor can have.
pub const MAX_HOPPERS: usize = 4;
/// Canister places of one tile.
pub const PLACES: usize = 16;
/// The distance "none".
pub const DISTANCE_NONE: u8 = 255;
/// Most layouts that a floor keeps.
pub const MAX_LAYOUTS: usize = 8;
/// Most bookings in one call.
pub const LONGEST_LIST: usize = 64;
/// Bytes of the longest image, which has eight layouts and one hopper.
pub const LONGEST_IMAGE: usize = 8_908;
/// Bytes of the longest page, of 8 x 8 tiles.
pub const LONGEST_PAGE: usize = 528;

/// Why a tile stood in a round; the first that fits.
pub mod reason {
    /// It was stopped.
    pub const STOPPED: u8 = 1;
    /// When the round began; a hopper always is.
    pub const EMPTY: u8 = 2;
    /// Its arrow was none.
    pub const NO_ARROW: u8 = 3;
    /// The turn of the tile ahead was another's, before it passed on.
    pub const TURN: u8 = 4;
    /// On the tile ahead; [`super::Report::missing`] says how much is missing.
    pub const NO_GAP: u8 = 5;
    /// It didn't stand: its canisters shifted.
    pub const MOVED: u8 = 6;
}

/// A canister, and its south-west corner from the tile's.
#[repr(C)]
#[derive(Clone, Copy, PartialEq, Eq, Hash, Debug)]
pub struct Canister {
    /// Never 0 on a floor.
    pub number: u32,
    /// Eastward.
    pub a: u16,
    /// Northward.
    pub b: u16,
}

impl Canister {
    /// A canister with its number and place.
    pub const fn new(number: u32, a: u16, b: u16) -> Canister {
        Canister { number, a, b }
    }
}

/// An entry of a list of bookings.
#[repr(C)]
#[derive(Clone, Copy, PartialEq, Eq, Debug)]
pub struct Booking {
    /// Where it is booked.
    pub tile: u32,
    /// What is booked, and at which place.
    pub canister: Canister,
    /// What the single booking would answer, 0 for accepted; what stood here
    /// before doesn't matter. [`Booking::answer()`] tells it as a result.
    pub answer: u8,
}

impl Booking {
    /// The answer of a booking that wasn't sent. No call gives it.
    pub const UNSENT: u8 = 255;

    /// An entry that wasn't sent.
    pub const fn new(tile: u32, canister: Canister) -> Booking {
        Booking {
            tile,
            canister,
            answer: Booking::UNSENT,
        }
    }

    /// What it was answered; none where it wasn't sent, and where its list was
    /// refused as too long.
    pub fn answer(&self) -> Option<Result<(), Refusal>> {
        (self.answer != Booking::UNSENT).then(|| accepted(self.answer))
    }
}

/// A side of a tile, or none.
#[repr(C)]
#[derive(Clone, Copy, PartialEq, Eq, Debug, Default)]
pub struct Side {
    /// 0 none, 1 west, 2 south, 3 north, 4 east.
    pub code: u8,
}

impl Side {
    /// No side: no arrow, or nobody's turn.
    pub const NONE: Side = Side { code: 0 };
    /// The side towards the lower columns.
    pub const WEST: Side = Side { code: 1 };
    /// The side towards the lower rows.
    pub const SOUTH: Side = Side { code: 2 };
    /// The side towards the higher rows.
    pub const NORTH: Side = Side { code: 3 };
    /// The side towards the higher columns.
    pub const EAST: Side = Side { code: 4 };
}

/// A tile without its canisters.
#[repr(C)]
#[derive(Clone, Copy, PartialEq, Eq, Debug)]
pub struct Tile {
    /// 1 running, 0 stopped.
    pub running: u8,
    /// To the nearest hopper, or [`DISTANCE_NONE`].
    pub distance: u8,
    /// The arrow.
    pub next: Side,
    /// The turn.
    pub token: Side,
    /// Canisters on the tile.
    pub count: u8,
}

/// W and H are 1 to 8, and W x H is at least 2. U is 2 to 60,000, v at least 1.
/// Required: v < l, d = l + r < U, and (U - l) / d, rounded down, at most 3.
/// Sets have bit t for tile t; a tile's number is column x H + row.
#[repr(C)]
#[derive(Clone, Copy, PartialEq, Eq)]
pub struct Settings {
    /// W.
    pub columns: u8,
    /// H.
    pub rows: u8,
    /// The hopper set: one to four tiles. With one hopper: `hoppers: ceromby::tile(5)`.
    pub hoppers: u64,
    /// The fill set. It may be empty and never holds a hopper.
    pub sources: u64,
    /// U, side of a tile.
    pub width: u16,
    /// l, side of a canister.
    pub length: u16,
    /// r, least gap.
    pub gap: u16,
    /// v, travel in a round.
    pub travel: u16,
}

/// Sets as their tiles.
impl fmt::Debug for Settings {
    fn fmt(&self, f: &mut fmt::Formatter) -> fmt::Result {
        f.debug_struct("Settings")
            .field("columns", &self.columns)
            .field("rows", &self.rows)
            .field("hoppers", &Set(self.hoppers))
            .field("sources", &Set(self.sources))
            .field("width", &self.width)
            .field("length", &self.length)
            .field("gap", &self.gap)
            .field("travel", &self.travel)
            .finish()
    }
}

/// A set of tiles as its numbers.
struct Set(u64);

impl fmt::Debug for Set {
    fn fmt(&self, f: &mut fmt::Formatter) -> fmt::Result {
        f.debug_set().entries(tiles(self.0)).finish()
    }
}

/// The tiles of a set, by rising number.
pub fn tiles(set: u64) -> impl DoubleEndedIterator<Item = u32> + Clone {
    (0..u64::BITS).filter(move |tile| set >> tile & 1 == 1)
}

/// Booked is the sum of delivered and those on the floor.
#[repr(C)]
#[derive(Clone, Copy, PartialEq, Eq, Debug, Default)]
pub struct Counters {
    /// The last number booked.
    pub last: u32,
    /// How many were booked.
    pub booked: u32,
    /// One for each hopper in tile order, then zeros.
    pub delivered: [u32; MAX_HOPPERS],
}

/// A name for a layout: 1 to 8 letters A to Z, then zeros. Any bytes may
/// stand here; what is no name is refused by 44.
#[repr(C)]
#[derive(Clone, Copy, PartialEq, Eq, Hash)]
pub struct Name {
    /// As in `*b"NETS\0\0\0\0"`; from text: `Name::from("NETS")`.
    pub letters: [u8; 8],
}

/// Nothing is cut off: text that eight letters can't hold, or that has a zero
/// in it, becomes the empty name, which is refused by 44.
impl From<&str> for Name {
    fn from(text: &str) -> Name {
        let mut letters = [0; 8];
        if text.len() <= letters.len() && !text.contains('\0') {
            letters[..text.len()].copy_from_slice(text.as_bytes());
        }
        Name { letters }
    }
}

/// The letters alone; a byte that is none by its number.
impl fmt::Display for Name {
    fn fmt(&self, f: &mut fmt::Formatter) -> fmt::Result {
        let end = self.letters.iter().position(|byte| *byte == 0);
        let used = &self.letters[..end.unwrap_or(self.letters.len())];
        match core::str::from_utf8(used) {
            Ok(text) if used.iter().all(u8::is_ascii_graphic) => f.pad(text),
            _ => fmt::Display::fmt(&used.escape_ascii(), f),
        }
    }
}

/// All bytes but the zeros at the end.
impl fmt::Debug for Name {
    fn fmt(&self, f: &mut fmt::Formatter) -> fmt::Result {
        let last = self.letters.iter().rposition(|byte| *byte != 0);
        let used = &self.letters[..last.map_or(0, |at| at + 1)];
        write!(f, "\"{}\"", used.escape_ascii())
    }
}

/// The tiles that ran when it was kept.
#[repr(C)]
#[derive(Clone, Copy, PartialEq, Eq)]
pub struct Layout {
    /// The first letter in the highest byte, so that names rise as numbers do.
    pub name: u64,
    /// Bit t for tile t; it holds every hopper.
    pub set: u64,
}

impl Layout {
    /// The name as letters, `layout.letters().to_string()` as text.
    pub fn letters(&self) -> Name {
        Name {
            letters: self.name.to_be_bytes(),
        }
    }
}

/// The name as letters, the set as its tiles.
impl fmt::Debug for Layout {
    fn fmt(&self, f: &mut fmt::Formatter) -> fmt::Result {
        f.debug_struct("Layout")
            .field("name", &self.letters())
            .field("set", &Set(self.set))
            .finish()
    }
}

/// Canisters of tile t are at places 16 t to 16 t + count - 1, by rising number.
/// Unused places and tiles are zero. Any bytes may stand here; a floor that
/// isn't well formed is refused by 30.
#[repr(C)]
#[derive(Clone, Copy, PartialEq, Eq)]
pub struct Floor {
    /// What it was made with.
    pub settings: Settings,
    /// Booked and delivered.
    pub counters: Counters,
    /// By tile number.
    pub tiles: [Tile; MAX_TILES],
    /// Sixteen places for each tile.
    pub canisters: [Canister; MAX_TILES * PLACES],
    /// By rising name, then zeros.
    pub layouts: [Layout; MAX_LAYOUTS],
}

/// Tiles, canisters and layouts by their place; those that are all zero are
/// left out.
impl fmt::Debug for Floor {
    fn fmt(&self, f: &mut fmt::Formatter) -> fmt::Result {
        let zero = Tile {
            running: 0,
            distance: 0,
            next: Side::NONE,
            token: Side::NONE,
            count: 0,
        };
        let none = Canister {
            number: 0,
            a: 0,
            b: 0,
        };
        let free = Layout { name: 0, set: 0 };
        f.debug_struct("Floor")
            .field("settings", &self.settings)
            .field("counters", &self.counters)
            .field("tiles", &Used(&self.tiles, zero))
            .field("canisters", &Used(&self.canisters, none))
            .field("layouts", &Used(&self.layouts, free))
            .finish()
    }
}

/// What differs from what an unused place holds, by its place.
struct Used<'a, T>(&'a [T], T);

impl<T: fmt::Debug + PartialEq> fmt::Debug for Used<'_, T> {
    fn fmt(&self, f: &mut fmt::Formatter) -> fmt::Result {
        let used = self.0.iter().enumerate().filter(|(_, at)| **at != self.1);
        f.debug_map().entries(used).finish()
    }
}

/// What one hopper took in.
#[repr(C)]
#[derive(Clone, Copy, PartialEq, Eq, Debug, Default)]
pub struct Delivery {
    /// Rising, then zeros.
    pub numbers: [u32; 4],
    /// How many, 0 to 4.
    pub count: u8,
}

impl Delivery {
    /// The numbers that count.
    pub fn used(&self) -> &[u32] {
        let count = usize::from(self.count);
        self.numbers.get(..count).unwrap_or(&self.numbers)
    }
}

/// What a round did.
#[repr(C)]
#[derive(Clone, Copy, PartialEq, Eq, Debug)]
pub struct Report {
    /// The side each tile granted, as in [`Side::code`]; 0 for none and where no
    /// tile is.
    pub grants: [u8; MAX_TILES],
    /// Why each tile stood, one of [`reason`]; 0 where no tile is.
    pub reasons: [u8; MAX_TILES],
    /// Beside [`reason::NO_GAP`] the missing millimetres, the worst canister's; else 0.
    pub missing: [u16; MAX_TILES],
    /// One for each hopper in tile order, then zeros.
    pub deliveries: [Delivery; MAX_HOPPERS],
}

/// What stands beside a refusal: nothing was done.
impl Default for Report {
    fn default() -> Report {
        Report {
            grants: [0; MAX_TILES],
            reasons: [0; MAX_TILES],
            missing: [0; MAX_TILES],
            deliveries: [Delivery::default(); MAX_HOPPERS],
        }
    }
}

/// The answer of a call that gives a floor.
#[must_use = "a call leaves the floor that it was handed"]
#[repr(C)]
#[derive(Clone, Copy, PartialEq, Eq, Debug)]
pub struct Answer {
    /// The floor after the call. Beside a refusal, the one that was handed in;
    /// all zero where none was.
    pub floor: Floor,
    /// 0 for accepted.
    pub refusal: u8,
}

/// The answer of a booking without a place.
#[must_use = "a call leaves the floor that it was handed"]
#[repr(C)]
#[derive(Clone, Copy, PartialEq, Eq, Debug)]
pub struct Placed {
    /// The floor after it. Beside a refusal, the one that was handed in.
    pub floor: Floor,
    /// The place that the canister took. Beside a refusal it is (0, 0), which
    /// is a place too; [`Placed::place`] gives none then.
    pub a: u16,
    /// The same, northward.
    pub b: u16,
    /// 0 for accepted.
    pub refusal: u8,
}

impl Placed {
    /// The place (a, b) that the canister took, if it was accepted.
    pub fn place(&self) -> Option<(u16, u16)> {
        (self.refusal == 0).then_some((self.a, self.b))
    }
}

/// The answer of a round.
#[must_use = "a call leaves the floor that it was handed"]
#[repr(C)]
#[derive(Clone, Copy, PartialEq, Eq, Debug)]
pub struct Rounded {
    /// The floor after it. Beside a refusal, the one that was handed in.
    pub floor: Floor,
    /// All zero beside a refusal.
    pub report: Report,
    /// 0 for accepted.
    pub refusal: u8,
}

/// The answer of a reading. Beside a refusal the rest is zero, the distance too.
#[must_use]
#[repr(C)]
#[derive(Clone, Copy, PartialEq, Eq, Debug)]
pub struct Reading {
    /// 0 for accepted.
    pub refusal: u8,
    /// The tile, without its canisters.
    pub tile: Tile,
    /// Its canisters by rising number, then zeros.
    pub members: [Canister; PLACES],
}

/// After how many rounds what can be delivered is delivered. Beside a refusal
/// the rest is zero.
#[must_use]
#[repr(C)]
#[derive(Clone, Copy, PartialEq, Eq, Debug)]
pub struct Bounded {
    /// (C - 1) x (1 + K x M), at least 1.
    pub rounds: u32,
    /// K: canisters on tiles with a live path to a hopper.
    pub connected: u32,
    /// Canisters on all other tiles.
    pub unconnected: u32,
    /// 0 for accepted.
    pub refusal: u8,
}

/// The answer of a write or a page as C gets it; [`super::write`] and
/// [`super::page`] don't give the length of a refused one.
#[repr(C)]
#[derive(Clone, Copy, PartialEq, Eq, Debug)]
pub struct Written {
    /// 0 for accepted.
    pub refusal: u8,
    /// 0 beside a refusal. Zero bytes are an image too, that of the standard
    /// floor, so look at the refusal first.
    pub length: u32,
}
