//! Random names and layouts.

use super::*;
use crate::types::{Layout, MAX_LAYOUTS};

/// Few enough that calls often meet a name that is held.
const NAMES: [&str; 12] = [
    "A", "B", "M", "Z", "AB", "NET", "NETS", "NETTING", "AAAAAAAA", "NETSOUTH", "ZZZZZZZY",
    "ZZZZZZZZ",
];

/// A name, mostly one of a few.
pub fn name(rng: &mut Rng) -> [u8; 8] {
    let mut letters = [0; 8];
    if rng.chance(3, 4) {
        let known = rng.pick(&NAMES).as_bytes();
        letters[..known.len()].copy_from_slice(known);
    } else {
        let length = rng.pick(&[1, 1, 2, 3, 5, 7, 8, 8]);
        for letter in &mut letters[..length] {
            *letter = rng.range(b'A'.into(), b'Z'.into()) as u8;
        }
    }
    letters
}

/// A name that the floor holds, if it holds one; as often any.
pub fn name_for(rng: &mut Rng, floor: &Floor) -> [u8; 8] {
    let held = &floor.layouts[..floor.layout_count()];
    match held.is_empty() || rng.chance(1, 2) {
        true => name(rng),
        false => rng.pick(held).letters(),
    }
}

/// Eight bytes that aren't a name.
pub fn bad_name(rng: &mut Rng) -> [u8; 8] {
    let mut letters = name(rng);
    let end = letters.iter().position(|byte| *byte == 0).unwrap_or(8);
    let within = rng.below(end as u64) as usize;
    match rng.below(5) {
        0 => return [0; 8],
        1 => letters[within] |= 32,
        2 if end < 7 => letters[rng.range(end as u64 + 1, 7) as usize] = b'A',
        2 => letters[..2].copy_from_slice(&[0, b'A']),
        3 => letters[within] = rng.pick(&[b'A' - 1, b'Z' + 1, b'0', b' ', 1, 255]),
        _ => letters[0] = 0xc3,
    }
    letters
}

/// Layouts of any well-formed floor with these tiles.
pub fn layouts(rng: &mut Rng, floor: &Floor) -> [Layout; MAX_LAYOUTS] {
    let mut layouts = [Layout::ZERO; MAX_LAYOUTS];
    let count = rng.pick(&[0, 0, 0, 0, 1, 2, 3, 6, 8, 8]);
    for held in 0..count {
        let mut fresh = u64::from_be_bytes(name(rng));
        while layouts[..held].iter().any(|layout| layout.name == fresh) {
            fresh = u64::from_be_bytes(name(rng));
        }
        layouts[held] = Layout {
            name: fresh,
            set: layout_set(rng, floor),
        };
    }
    layouts[..count].sort_unstable_by_key(|layout| layout.name);
    layouts
}

/// The running tiles, a few others too or without a few, or any with the hoppers.
fn layout_set(rng: &mut Rng, floor: &Floor) -> u64 {
    let all = floor.settings.all_tiles();
    let running = running_tiles(floor);
    let few = rng.draw() & rng.draw() & all;
    let set = match rng.below(6) {
        0 | 1 => running,
        2 => running | few,
        3 => running & !few,
        4 => all,
        _ => rng.draw() & all,
    };
    set | floor.settings.hoppers
}

fn running_tiles(floor: &Floor) -> u64 {
    let tiles = 0..floor.settings.tile_count();
    let running = tiles.filter(|tile| floor.tiles[*tile].running == 1);
    running.map(|tile| 1 << tile).sum()
}

/// Keeping or forgetting, or recalling a layout that changes no tile.
pub fn still_call(rng: &mut Rng, floor: &Floor) -> Call {
    let running = running_tiles(floor);
    let held = &floor.layouts[..floor.layout_count()];
    let same = held.iter().find(|layout| layout.set == running);
    match (rng.below(4), same) {
        (0 | 1, Some(layout)) => Call::Recall {
            name: layout.letters(),
        },
        (2, _) => Call::Forget {
            name: name_for(rng, floor),
        },
        _ => Call::Keep {
            name: name_for(rng, floor),
        },
    }
}
