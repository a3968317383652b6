//! A tile of a floor, and the places on it.

use core::fmt;

use crate::raw::{self, Canister, DISTANCE_NONE};

/// A side of a tile.
#[derive(Clone, Copy, PartialEq, Eq, Hash, Debug)]
pub enum Side {
    /// Towards the lower columns.
    West,
    /// Towards the lower rows.
    South,
    /// Towards the higher rows.
    North,
    /// Towards the higher columns.
    East,
}

impl Side {
    /// The side of a number: 1 west, 2 south, 3 north, 4 east; none for others.
    pub const fn of(code: u8) -> Option<Side> {
        match code {
            1 => Some(Side::West),
            2 => Some(Side::South),
            3 => Some(Side::North),
            4 => Some(Side::East),
            _ => None,
        }
    }

    /// Its number, 1 to 4.
    pub const fn code(self) -> u8 {
        match self {
            Side::West => 1,
            Side::South => 2,
            Side::North => 3,
            Side::East => 4,
        }
    }
}

impl fmt::Display for Side {
    fn fmt(&self, f: &mut fmt::Formatter) -> fmt::Result {
        f.pad(match self {
            Side::West => "west",
            Side::South => "south",
            Side::North => "north",
            Side::East => "east",
        })
    }
}

/// A place on a tile: the south-west corner of a canister, in millimetres from
/// the tile's.
#[derive(Clone, Copy, PartialEq, Eq, Hash, Debug)]
pub struct Place {
    /// Eastward.
    pub a: u16,
    /// Northward.
    pub b: u16,
}

impl fmt::Display for Place {
    fn fmt(&self, f: &mut fmt::Formatter) -> fmt::Result {
        write!(f, "({}, {})", self.a, self.b)
    }
}

/// All that a tile has, as [`crate::Floor::read`] and [`crate::Floor::tiles`]
/// give it.
#[derive(Clone, Copy, PartialEq, Eq)]
pub struct Tile {
    /// Accepted. Whole: moved out of it, head and places would be two copies.
    pub(crate) reading: raw::Reading,
}

impl Tile {
    /// Whether it runs; else it is stopped.
    pub fn is_running(&self) -> bool {
        self.reading.tile.running == 1
    }

    /// The distance to the nearest hopper, where it has one.
    pub fn distance(&self) -> Option<u8> {
        (self.reading.tile.distance != DISTANCE_NONE).then_some(self.reading.tile.distance)
    }

    /// The side that its canisters leave by.
    pub fn arrow(&self) -> Option<Side> {
        Side::of(self.reading.tile.next.code)
    }

    /// The side whose turn it is to come in.
    pub fn turn(&self) -> Option<Side> {
        Side::of(self.reading.tile.token.code)
    }

    /// Its canisters, by rising number.
    pub fn canisters(&self) -> &[Canister] {
        let members = &self.reading.members;
        let count = usize::from(self.reading.tile.count);
        members.get(..count).unwrap_or(members)
    }
}

impl fmt::Debug for Tile {
    fn fmt(&self, f: &mut fmt::Formatter) -> fmt::Result {
        f.debug_struct("Tile")
            .field("running", &self.is_running())
            .field("distance", &self.distance())
            .field("arrow", &self.arrow())
            .field("turn", &self.turn())
            .field("canisters", &self.canisters())
            .finish()
    }
}
