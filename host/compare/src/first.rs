//! The first record of an image.

use oracle::only;

/// The first record of an image, where it is whole, of its kind, and has 20
/// or 28 bytes.
pub struct First {
    /// Whether it has a set of hoppers.
    pub long: bool,
    pub columns: u8,
    pub rows: u8,
    /// The hopper byte.
    pub hopper: u8,
    pub fixed: u8,
    pub sources: u64,
    /// The set, or that of the hopper byte alone.
    pub hoppers: u64,
    /// The tiles of the floor; all bits for W or H out of range.
    pub on_floor: u64,
    /// Whether a whole record of kind 2 follows whose length suits another
    /// number of hoppers, one to four.
    pub other_counters: bool,
}

/// Where a first record of 20 bytes ends, and one of 28.
pub const SHORT: usize = 24;
pub const LONG: usize = 32;

impl First {
    pub fn of(bytes: &[u8]) -> Option<First> {
        let long = match bytes.get(..4)? {
            [20, 0, 1, 0] => false,
            [28, 0, 1, 0] => true,
            _ => return None,
        };
        let end = if long { LONG } else { SHORT };
        let body = bytes.get(4..end)?;
        let hoppers = match long {
            true => set_at(bytes, SHORT)?,
            false => only(body[2]),
        };
        let tiles = u32::from(body[0]) * u32::from(body[1]);
        let count = hoppers.count_ones() as usize;
        Some(First {
            long,
            columns: body[0],
            rows: body[1],
            hopper: body[2],
            fixed: body[3],
            sources: set_at(bytes, 16)?,
            hoppers,
            on_floor: u64::MAX >> (64 - tiles.clamp(1, 64)),
            other_counters: other_counters(&bytes[end..], count),
        })
    }

    /// Whether the hopper byte is the lowest of the set.
    pub fn lowest_fits(&self) -> bool {
        self.hoppers.trailing_zeros() == u32::from(self.hopper)
    }

    /// How many the set has, where all are on the floor.
    pub fn on_floor_count(&self) -> Option<u32> {
        let off = self.hoppers & !self.on_floor != 0;
        (!off).then_some(self.hoppers.count_ones())
    }

    /// Whether the fill set is sound.
    pub fn fill_fits(&self) -> bool {
        self.sources & (self.hoppers | !self.on_floor) == 0
    }

    /// The refusal that the record asks for, its measures aside.
    pub fn due(&self) -> Option<u8> {
        let lines = [self.columns, self.rows];
        let grid_fits = lines.iter().all(|lines| (1..=8).contains(lines)) && lines != [1, 1];
        let number = if self.long { 2..=4 } else { 1..=1 };
        let count_fits = self
            .on_floor_count()
            .is_some_and(|count| number.contains(&count));
        if self.fixed != 0 || self.long && self.hoppers != 0 && !self.lowest_fits() {
            Some(11)
        } else if !grid_fits {
            Some(1)
        } else if !count_fits || !self.fill_fits() {
            Some(2)
        } else {
            None
        }
    }

    /// Whether the fill set would be sound if the lowest were the only hopper.
    pub fn fill_fits_lowest(&self) -> bool {
        let lowest = self.hoppers & self.hoppers.wrapping_neg();
        self.sources & (lowest | !self.on_floor) == 0
    }
}

fn set_at(bytes: &[u8], at: usize) -> Option<u64> {
    let field = bytes.get(at..at + 8)?;
    field.try_into().ok().map(u64::from_le_bytes)
}

/// Whether a whole counters record begins here, for some other number.
fn other_counters(bytes: &[u8], count: usize) -> bool {
    match *bytes {
        [length, 0, 2, 0, ..] => {
            let due = 8 + 4 * count;
            let length = usize::from(length);
            let suits = [12, 16, 20, 24].contains(&length);
            suits && length != due && bytes.len() >= 4 + length
        }
        _ => false,
    }
}
