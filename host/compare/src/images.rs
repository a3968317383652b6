//! Damage to images.

use oracle::only;
use oracle::random::Rng;

use crate::first::{First, LONG, SHORT};
use crate::layout_images::{self, Records};

/// Start of each record, and the end of the last, as far as lengths lead.
pub fn borders(bytes: &[u8]) -> Vec<usize> {
    let mut borders = vec![0];
    let mut at = 0;
    while let Some(length) = bytes.get(at..at + 2) {
        at += 4 + usize::from(u16::from_le_bytes([length[0], length[1]]));
        if at > bytes.len() {
            break;
        }
        borders.push(at);
    }
    borders
}

/// Some record as start and end.
fn record(rng: &mut Rng, bytes: &[u8]) -> Option<(usize, usize)> {
    let borders = borders(bytes);
    if borders.len() < 2 {
        return None;
    }
    let at = match rng.below(6) {
        0 => 0,
        1 => borders.len() - 2,
        _ => rng.below(borders.len() as u64 - 1) as usize,
    };
    Some((borders[at], borders[at + 1]))
}

/// One to three changes.
pub fn damage(rng: &mut Rng, bytes: &mut Vec<u8>) {
    let times = rng.pick(&[1, 1, 1, 2, 2, 3]);
    for _ in 0..times {
        damage_once(rng, bytes);
    }
}

fn damage_once(rng: &mut Rng, bytes: &mut Vec<u8>) {
    match rng.below(32) {
        0 | 1 => cut(rng, bytes),
        2 | 3 => lengthen(rng, bytes),
        4 => change_bytes(rng, bytes),
        5 => swap_records(rng, bytes),
        6 | 7 => change_length(rng, bytes),
        8 | 9 => change_kind(rng, bytes),
        10 => drop_record(rng, bytes),
        11 => repeat_record(rng, bytes),
        12..=14 => change_settings(rng, bytes),
        15..=18 => change_tile(rng, bytes),
        19 | 20 => change_canister(rng, bytes),
        21 => drop_canister(rng, bytes),
        22 => change_counters(rng, bytes),
        23 | 24 => change_hoppers(rng, bytes),
        25 => other_length(rng, bytes),
        26 => more_or_fewer_counters(rng, bytes),
        27..=30 => layout_images::damage(rng, bytes),
        _ => {
            let length = rng.pick(&[0, 1, 3, 4, 24, 64, 200]);
            if rng.chance(1, 8) {
                *bytes = (0..length).map(|_| rng.draw() as u8).collect();
            }
        }
    }
}

/// At times to nothing, or to less than the head of a record.
fn cut(rng: &mut Rng, bytes: &mut Vec<u8>) {
    let length = match rng.below(5) {
        0 => bytes.len().saturating_sub(rng.range(1, 5) as usize),
        1 => {
            let borders = borders(bytes);
            rng.pick(&borders) + rng.below(6) as usize
        }
        2 => rng.below(4) as usize,
        _ => rng.below(bytes.len() as u64 + 1) as usize,
    };
    bytes.truncate(length);
}

fn lengthen(rng: &mut Rng, bytes: &mut Vec<u8>) {
    match rng.below(4) {
        0 => bytes.extend([0, 0, 4, 0]),
        1 => bytes.extend_from_within(..),
        _ => {
            let more = rng.range(1, 20);
            bytes.extend((0..more).map(|_| rng.draw() as u8));
        }
    }
    bytes.truncate(20_000);
}

fn change_bytes(rng: &mut Rng, bytes: &mut [u8]) {
    for _ in 0..rng.range(1, 4) {
        if !bytes.is_empty() {
            let at = rng.below(bytes.len() as u64) as usize;
            bytes[at] = match rng.chance(1, 2) {
                true => rng.draw() as u8,
                false => bytes[at] ^ 1 << rng.below(8),
            };
        }
    }
}

fn swap_records(rng: &mut Rng, bytes: &mut Vec<u8>) {
    let (Some(one), Some(other)) = (record(rng, bytes), record(rng, bytes)) else {
        return;
    };
    let (low, high) = (one.min(other), one.max(other));
    if low.1 <= high.0 {
        let mut swapped = bytes[..low.0].to_vec();
        swapped.extend(&bytes[high.0..high.1]);
        swapped.extend(&bytes[low.1..high.0]);
        swapped.extend(&bytes[low.0..low.1]);
        swapped.extend(&bytes[high.1..]);
        *bytes = swapped;
    }
}

pub fn put(bytes: &mut [u8], at: usize, value: u16) {
    if let Some(field) = bytes.get_mut(at..at + 2) {
        field.copy_from_slice(&value.to_le_bytes());
    }
}

fn change_length(rng: &mut Rng, bytes: &mut [u8]) {
    if let Some((start, end)) = record(rng, bytes) {
        let length = (end - start - 4) as u16;
        let change = rng.pick(&[1, 2, 8, u16::MAX, u16::MAX - 7, 256]);
        let value = match rng.below(4) {
            0 => rng.pick(&[0, 3, 5, 6, 12, 20, 28, 134, 142, u16::MAX]),
            1 => rng.draw() as u16,
            _ => length.wrapping_add(change),
        };
        put(bytes, start, value);
    }
}

fn change_kind(rng: &mut Rng, bytes: &mut [u8]) {
    if let Some((start, _)) = record(rng, bytes) {
        let value = match rng.below(4) {
            0 => rng.draw() as u16,
            1 => 256 + rng.range(1, 5) as u16,
            _ => rng.range(0, 6) as u16,
        };
        put(bytes, start + 2, value);
    }
}

fn drop_record(rng: &mut Rng, bytes: &mut Vec<u8>) {
    if let Some((start, end)) = record(rng, bytes) {
        bytes.drain(start..end);
    }
}

fn repeat_record(rng: &mut Rng, bytes: &mut Vec<u8>) {
    if let Some((start, end)) = record(rng, bytes) {
        let copy = bytes[start..end].to_vec();
        bytes.splice(start..start, copy);
    }
}

fn change_settings(rng: &mut Rng, bytes: &mut [u8]) {
    let byte = rng.pick(&[0, 1, 2, 7, 8, 9, 63, 64, 255]);
    let pair = rng.pick(&[0, 1, 2, 3, 29, 30, 60_000, 60_001, u16::MAX]);
    match rng.below(10) {
        at @ 0..=3 => {
            if let Some(field) = bytes.get_mut(4 + at as usize) {
                *field = byte;
            }
        }
        at @ 4..=7 => put(bytes, at as usize * 2, pair),
        _ => {
            let bit = rng.below(64) as usize;
            if let Some(field) = bytes.get_mut(16 + bit / 8) {
                *field ^= 1 << (bit % 8);
            }
        }
    }
}

fn change_counters(rng: &mut Rng, bytes: &mut [u8]) {
    let Some(start) = borders(bytes).get(1).copied() else {
        return;
    };
    let at = start + 4 + 4 * rng.below(6) as usize;
    let change = rng.pick(&[1, u32::MAX, 1 << 31]);
    if let Some(field) = bytes.get_mut(at..at + 4) {
        let value = u32::from_le_bytes([field[0], field[1], field[2], field[3]]);
        field.copy_from_slice(&value.wrapping_add(change).to_le_bytes());
    }
}

/// Changes the set of a long first record; the hopper byte follows mostly.
fn change_hoppers(rng: &mut Rng, bytes: &mut [u8]) {
    let Some(first) = First::of(bytes).filter(|first| first.long) else {
        return;
    };
    let bit = 1 << rng.below(64);
    let near = first.on_floor;
    let set = match rng.below(8) {
        0 => 0,
        1 => first.hoppers & first.hoppers.wrapping_neg(),
        2 => first.hoppers & first.hoppers.wrapping_sub(1),
        3 => first.hoppers | rng.draw() & near,
        4 => first.hoppers ^ bit & near,
        5 => first.hoppers | first.sources & rng.draw(),
        6 => bit,
        _ => first.hoppers ^ bit,
    };
    bytes[SHORT..LONG].copy_from_slice(&set.to_le_bytes());
    match rng.below(4) {
        0 => {}
        1 => bytes[6] = rng.below(66) as u8,
        _ => bytes[6] = set.trailing_zeros() as u8,
    }
}

/// A long first record for a short one, or the other way.
fn other_length(rng: &mut Rng, bytes: &mut Vec<u8>) {
    let Some(first) = First::of(bytes) else {
        return;
    };
    if first.long {
        bytes.drain(SHORT..LONG);
        return put(bytes, 0, 20);
    }
    let more = rng.draw() & rng.draw() & first.on_floor;
    let set = match rng.chance(1, 2) {
        true => first.hoppers,
        false => first.hoppers | more,
    };
    bytes.splice(SHORT..SHORT, set.to_le_bytes());
    bytes[6] = set.trailing_zeros() as u8;
    put(bytes, 0, 28);
}

/// One delivered counter more or fewer, the record's length being right.
fn more_or_fewer_counters(rng: &mut Rng, bytes: &mut Vec<u8>) {
    let [_, start, end, ..] = borders(bytes)[..] else {
        return;
    };
    let length = end - start - 4;
    if rng.chance(1, 2) {
        bytes.splice(end..end, [0; 4]);
        put(bytes, start, length as u16 + 4);
    } else if length >= 4 {
        bytes.drain(end - 4..end);
        put(bytes, start, length as u16 - 4);
    }
}

fn change_tile(rng: &mut Rng, bytes: &mut [u8]) {
    if let Some((start, end)) = record(rng, bytes) {
        let at = start + 4 + rng.below(6) as usize;
        if at < end {
            bytes[at] = rng.pick(&[0, 1, 2, 3, 4, 5, 15, 16, 17, 63, 64, 254, 255]);
        }
    }
}

fn change_canister(rng: &mut Rng, bytes: &mut [u8]) {
    if let Some((start, end)) = record(rng, bytes) {
        if end - start > 10 {
            let at = rng.range(start as u64 + 10, end as u64 - 1) as usize;
            bytes[at] = match rng.below(3) {
                0 => 0,
                1 => rng.draw() as u8,
                _ => bytes[at].wrapping_add(1),
            };
        }
    }
}

/// Takes the last canister out of a tile's record, whose length stays right.
pub fn without_canister(bytes: &[u8], start: usize, end: usize) -> Option<Vec<u8>> {
    let count = *bytes.get(start + 9)?;
    if end - start < 18 || count == 0 {
        return None;
    }
    let mut less = bytes[..end - 8].to_vec();
    less.extend(&bytes[end..]);
    put(&mut less, start, (end - start - 12) as u16);
    less[start + 9] = count - 1;
    Some(less)
}

fn drop_canister(rng: &mut Rng, bytes: &mut Vec<u8>) {
    if let Some((start, end)) = record(rng, bytes) {
        if let Some(less) = without_canister(bytes, start, end) {
            *bytes = less;
        }
    }
}

/// Smaller images to try in place of one.
pub fn smaller(bytes: &[u8]) -> Vec<Vec<u8>> {
    let mut tries = Vec::new();
    let borders = borders(bytes);
    let layouts = Records::of(bytes).map_or(Vec::new(), |records| records.placed);
    tries.extend(Line::all().filter_map(|line| without_line(bytes, &borders, &layouts, line)));
    for (start, end) in layouts {
        tries.push([&bytes[..start], &bytes[end..]].concat());
    }
    for pair in borders.windows(2) {
        let (start, end) = (pair[0], pair[1]);
        if let Some(mut less) = without_canister(bytes, start, end) {
            tries.push(less.clone());
            let booked = borders[1] + 8;
            if let Some(field) = less.get_mut(booked..booked + 4) {
                let booked = u32::from_le_bytes([field[0], field[1], field[2], field[3]]);
                field.copy_from_slice(&booked.wrapping_sub(1).to_le_bytes());
                tries.push(less);
            }
        }
    }
    let mut size = bytes.len();
    while size > 0 {
        for start in (0..bytes.len()).step_by(size).take(200) {
            let end = (start + size).min(bytes.len());
            tries.push([&bytes[..start], &bytes[end..]].concat());
        }
        size /= 4;
    }
    tries
}

/// The image without the tile records of one line.
fn without_line(
    bytes: &[u8],
    borders: &[usize],
    layouts: &[(usize, usize)],
    line: Line,
) -> Option<Vec<u8>> {
    let first = First::of(bytes)?;
    let (columns, rows) = (first.columns, first.rows);
    let tiles = usize::from(columns) * usize::from(rows);
    let starts = borders.get(2 + layouts.len()..)?;
    if !(1..=64).contains(&tiles) || starts.len() < 1 + tiles {
        return None;
    }
    let (wide, high) = line.left(columns, rows)?;
    let mut less = bytes[..starts[0]].to_vec();
    for (start, _) in layouts {
        if let Some(field) = less.get_mut(start + 12..start + 20) {
            let set = u64::from_le_bytes(field.try_into().ok()?);
            field.copy_from_slice(&line.rest_of_set(rows, set).to_le_bytes());
        }
    }
    let mut set = 0u64;
    for tile in 0..tiles as u8 {
        let from = starts[usize::from(tile)];
        let to = starts[1 + usize::from(tile)];
        if let Some(new) = line.kept(rows, tile) {
            let at = less.len();
            less.extend(&bytes[from..to]);
            if let Some(number) = less.get_mut(at + 4) {
                *number = number.wrapping_sub(tile).wrapping_add(new);
            }
            set |= (first.sources >> tile & 1) << new;
        }
    }
    less.extend(&bytes[starts[tiles]..]);
    (less[4], less[5], less[6]) = (wide, high, line.kept(rows, first.hopper)?);
    less[16..24].copy_from_slice(&set.to_le_bytes());
    if first.long {
        let hoppers = line.kept_set(rows, first.hoppers)?;
        less[SHORT..LONG].copy_from_slice(&hoppers.to_le_bytes());
    }
    Some(less)
}

/// A column or row to take away.
#[derive(Clone, Copy)]
pub enum Line {
    Column(u8),
    Row(u8),
}

impl Line {
    pub fn all() -> impl Iterator<Item = Line> {
        (0..8).map(Line::Column).chain((0..8).map(Line::Row))
    }

    /// The columns and rows left, if the line is there and isn't the only one.
    pub fn left(self, columns: u8, rows: u8) -> Option<(u8, u8)> {
        match self {
            Line::Column(at) => (columns > 1 && at < columns).then_some((columns - 1, rows)),
            Line::Row(at) => (rows > 1 && at < rows).then_some((columns, rows - 1)),
        }
    }

    /// The tiles of a set by their numbers without the line, if all are left.
    pub fn kept_set(self, rows: u8, set: u64) -> Option<u64> {
        let tiles = (0..64).filter(|tile| set >> tile & 1 == 1);
        tiles.map(|tile| self.kept(rows, tile).map(only)).sum()
    }

    /// The tiles of a set that are left, by their numbers without the line.
    pub fn rest_of_set(self, rows: u8, set: u64) -> u64 {
        let tiles = (0..64).filter(|tile| set >> tile & 1 == 1);
        let left = tiles.filter_map(|tile| self.kept(rows, tile));
        left.fold(0, |set, tile| set | only(tile))
    }

    /// The number that a tile has without the line, if it is left.
    pub fn kept(self, rows: u8, tile: u8) -> Option<u8> {
        let (column, row) = (tile / rows, tile % rows);
        match self {
            Line::Column(at) if at == column => None,
            Line::Column(at) => Some((column - u8::from(column > at)) * rows + row),
            Line::Row(at) if at == row => None,
            Line::Row(at) => Some(column * (rows - 1) + row - u8::from(row > at)),
        }
    }
}
