//! Named layouts: keeping, forgetting and recalling them.

use crate::calls::{repair, stop};
use crate::check::well_formed;
use crate::faults::{self, Fault};
use crate::refusal;
use crate::types::{Answer, Floor, Layout, Settings, Tile, MAX_LAYOUTS};

/// The bytes of a name given as text. Whatever is no name gives the empty one,
/// which is none either; nothing is cut off.
pub fn name(text: &str) -> [u8; 8] {
    let mut letters = [0; 8];
    let bytes = match faults::on(Fault::NameCut) {
        true => &text.as_bytes()[..text.len().min(8)],
        false => text.as_bytes(),
    };
    if bytes.len() <= 8 && bytes.iter().all(u8::is_ascii_uppercase) {
        letters[..bytes.len()].copy_from_slice(bytes);
    }
    letters
}

/// One to eight letters A to Z, then zeros.
pub(crate) fn is_name(letters: [u8; 8]) -> bool {
    let used = letters.iter().take_while(|byte| byte.is_ascii_uppercase());
    let used = used.count();
    let filled = letters[used..].iter().all(|byte| *byte == 0);
    let unchecked = faults::on(Fault::FillingUnchecked)
        && letters
            .iter()
            .all(|byte| *byte == 0 || byte.is_ascii_uppercase());
    used > 0 && (filled || unchecked)
}

/// Whether the layouts in memory are those of a well-formed floor, whose
/// settings pass 1 to 3.
pub(crate) fn layouts_fit(floor: &Floor) -> bool {
    let used = &floor.layouts[..floor.layout_count()];
    let rising = |pair: &[Layout]| pair[0].name < pair[1].name;
    used.iter()
        .all(|layout| layout_fits(layout, &floor.settings))
        && (used.windows(2).all(rising) || faults::on(Fault::UnsortedLayouts))
}

/// A name, and a set of tiles of the floor that holds every hopper.
fn layout_fits(layout: &Layout, settings: &Settings) -> bool {
    let hoppers = match faults::on(Fault::OneHopperRuns) {
        true => settings.hoppers & settings.hoppers.wrapping_neg(),
        false => settings.hoppers,
    };
    let beyond = layout.set & !settings.all_tiles();
    is_name(layout.letters())
        && layout.set & hoppers == hoppers
        && (beyond == 0 || faults::on(Fault::LayoutBeyond))
}

/// A layout's place, or the place where it would have to stand.
fn find(floor: &Floor, name: u64) -> Result<usize, usize> {
    let used = &floor.layouts[..floor.layout_count()];
    let at = used.iter().take_while(|layout| layout.name < name).count();
    match used.get(at) {
        Some(layout) if layout.name == name => Ok(at),
        _ => Err(at),
    }
}

/// The name as a number, or 30 or 44.
fn checked_name(floor: &Floor, letters: [u8; 8]) -> Result<u64, u8> {
    if !well_formed(floor) {
        Err(refusal::MALFORMED)
    } else if !is_name(letters) {
        Err(refusal::BAD_NAME)
    } else {
        Ok(u64::from_be_bytes(letters))
    }
}

/// The place of a held name, or 30, 44 or 45.
fn checked_place(floor: &Floor, letters: [u8; 8]) -> Result<usize, u8> {
    match checked_name(floor, letters) {
        Err(refusal::BAD_NAME) if faults::on(Fault::NotHeldFirst) => Err(refusal::NAME_NOT_HELD),
        Err(refusal) => Err(refusal),
        Ok(name) => find(floor, name).map_err(|_| refusal::NAME_NOT_HELD),
    }
}

/// Keeps the tiles that run under a name.
pub fn keep(floor: &Floor, letters: [u8; 8]) -> Answer {
    match checked_keep(floor, letters) {
        Ok(after) => Answer::accepted(after),
        Err(refusal) => Answer::refused(refusal, floor),
    }
}

fn checked_keep(floor: &Floor, letters: [u8; 8]) -> Result<Floor, u8> {
    let name = checked_name(floor, letters)?;
    let set = running_tiles(floor);
    let mut after = *floor;
    let full = floor.layout_count() == MAX_LAYOUTS;
    match find(floor, name) {
        Ok(_) if full && faults::on(Fault::FullRefuses) => return Err(refusal::LAYOUTS_FULL),
        Ok(at) => after.layouts[at].set = set,
        Err(_) if full && faults::on(Fault::NinthReplaces) => {
            after.layouts[MAX_LAYOUTS - 1] = Layout { name, set };
        }
        Err(_) if full => return Err(refusal::LAYOUTS_FULL),
        Err(at) => {
            after.layouts[at..].rotate_right(1);
            after.layouts[at] = Layout { name, set };
        }
    }
    Ok(after)
}

fn running_tiles(floor: &Floor) -> u64 {
    (0..floor.settings.tile_count())
        .filter(|tile| floor.tiles[*tile].running == 1)
        .map(|tile| 1 << tile)
        .sum()
}

/// Frees the place of a name.
pub fn forget(floor: &Floor, letters: [u8; 8]) -> Answer {
    match checked_place(floor, letters) {
        Ok(at) => {
            let mut after = *floor;
            after.layouts[at] = Layout::ZERO;
            if !faults::on(Fault::ForgetHole) {
                after.layouts[at..].rotate_left(1);
            }
            Answer::accepted(after)
        }
        Err(refusal) => Answer::refused(refusal, floor),
    }
}

/// Stops and repairs tiles until those run that the layout has.
pub fn recall(floor: &Floor, letters: [u8; 8]) -> Answer {
    match checked_place(floor, letters) {
        Ok(at) => Answer::accepted(recalled(floor, floor.layouts[at].set)),
        Err(refusal) => Answer::refused(refusal, floor),
    }
}

/// The stops and repairs needed, in rising tile number.
fn recalled(floor: &Floor, set: u64) -> Floor {
    let mut after = *floor;
    for tile in 0..floor.settings.tile_count() {
        let number = tile as u32;
        match (floor.tiles[tile].running == 1, set >> tile & 1 == 1) {
            (true, false) => after = stop(&after, number).floor,
            (false, true) => after = repair(&after, number).floor,
            (true, true)
                if faults::on(Fault::RecallRestarts) && !floor.settings.is_hopper(tile) =>
            {
                let count = floor.tiles[tile].count;
                after.tiles[tile] = Tile {
                    count,
                    ..Tile::IDLE
                };
            }
            _ => {}
        }
    }
    if faults::on(Fault::RecallCounters) {
        after.counters.last = after.counters.booked;
    }
    after
}
