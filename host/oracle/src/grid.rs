//! Sides and neighbours.

use crate::types::Settings;

#[repr(u8)]
#[derive(Clone, Copy, PartialEq, Eq, Debug)]
pub enum Side {
    West = 1,
    South = 2,
    North = 3,
    East = 4,
}

impl Side {
    /// In cyclic order, and in order of the neighbour's tile number.
    pub const ALL: [Side; 4] = [Side::West, Side::South, Side::North, Side::East];

    /// The side of a code; nothing for 0 and for codes without a meaning.
    pub fn from_code(code: u8) -> Option<Side> {
        match code {
            1 => Some(Side::West),
            2 => Some(Side::South),
            3 => Some(Side::North),
            4 => Some(Side::East),
            _ => None,
        }
    }

    pub fn code(self) -> u8 {
        self as u8
    }

    pub fn opposite(self) -> Side {
        match self {
            Side::West => Side::East,
            Side::South => Side::North,
            Side::North => Side::South,
            Side::East => Side::West,
        }
    }
}

/// A tile with its column and row.
#[derive(Clone, Copy, PartialEq, Eq, Debug)]
pub struct Spot {
    pub tile: usize,
    pub column: usize,
    pub row: usize,
}

#[derive(Clone, Copy, PartialEq, Eq, Debug)]
pub struct Grid {
    columns: usize,
    rows: usize,
}

impl Grid {
    pub fn of(settings: &Settings) -> Grid {
        Grid {
            columns: usize::from(settings.columns),
            rows: usize::from(settings.rows),
        }
    }

    /// All tiles in order of their number.
    pub fn spots(self) -> impl Iterator<Item = Spot> {
        (0..self.columns).flat_map(move |column| {
            (0..self.rows).map(move |row| Spot {
                tile: column * self.rows + row,
                column,
                row,
            })
        })
    }

    /// The tile next to a spot on a side, if the floor has one there.
    pub fn neighbour(self, spot: Spot, side: Side) -> Option<usize> {
        match side {
            Side::West => (spot.column > 0).then(|| spot.tile - self.rows),
            Side::South => (spot.row > 0).then(|| spot.tile - 1),
            Side::North => (spot.row + 1 < self.rows).then(|| spot.tile + 1),
            Side::East => (spot.column + 1 < self.columns).then(|| spot.tile + self.rows),
        }
    }
}
