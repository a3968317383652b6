//! "Well formed" once more, clause by clause and slowly.

use oracle::{Canister, Floor, Tile};

pub fn well_formed(floor: &Floor) -> bool {
    settings_fit(floor) && {
        let count = tiles(floor);
        (0..count).all(|tile| tile_fits(floor, tile))
            && (count..64).all(|tile| {
                floor.tiles[tile] == Tile::ZERO
                    && (0..16).all(|place| floor.canisters[16 * tile + place] == Canister::ZERO)
            })
            && numbers_fit(floor)
            && layouts_fit(floor)
    }
}

fn tiles(floor: &Floor) -> usize {
    floor.settings.columns as usize * floor.settings.rows as usize
}

fn settings_fit(floor: &Floor) -> bool {
    let s = &floor.settings;
    let (w, h) = (s.columns as i64, s.rows as i64);
    let (u, l, r, v) = (
        s.width as i64,
        s.length as i64,
        s.gap as i64,
        s.travel as i64,
    );
    let d = l + r;
    if !((1..=8).contains(&w) && (1..=8).contains(&h) && w * h >= 2) {
        return false;
    }
    let fill_fits = (0..64i64).all(|t| {
        let held = (s.sources >> t) & 1 == 1;
        !held || (t < w * h && s.hoppers >> t & 1 == 0)
    });
    let hoppers: Vec<i64> = (0..64).filter(|t| s.hoppers >> t & 1 == 1).collect();
    (1..=4).contains(&hoppers.len())
        && hoppers.iter().all(|t| *t < w * h)
        && fill_fits
        && (2..=60_000).contains(&u)
        && v >= 1
        && v < l
        && d < u
        && (u - l) / d <= 3
}

/// The neighbour behind a side, by column and row.
pub fn beside(floor: &Floor, tile: usize, code: u8) -> Option<usize> {
    let (w, h) = (floor.settings.columns as i64, floor.settings.rows as i64);
    let (column, row) = (tile as i64 / h, tile as i64 % h);
    let (column, row) = match code {
        1 => (column - 1, row),
        2 => (column, row - 1),
        3 => (column, row + 1),
        4 => (column + 1, row),
        _ => return None,
    };
    let on = 0 <= column && column < w && 0 <= row && row < h;
    on.then_some((column * h + row) as usize)
}

fn tile_fits(floor: &Floor, tile: usize) -> bool {
    let t = &floor.tiles[tile];
    if t.running > 1 || t.count > 16 {
        return false;
    }
    let hopper = floor.settings.hoppers >> tile & 1 == 1;
    if hopper && !(t.running == 1 && t.distance == 0 && t.next == 0 && t.count == 0) {
        return false;
    }
    if !hopper && t.running == 1 {
        let far = t.distance == 255;
        let near = 1 <= t.distance && (t.distance as usize) < tiles(floor);
        if !far && !near {
            return false;
        }
        if far != (t.next == 0) {
            return false;
        }
    }
    if t.running == 0 && !(t.distance == 255 && t.next == 0 && t.token == 0) {
        return false;
    }
    [t.next, t.token]
        .iter()
        .all(|code| *code == 0 || beside(floor, tile, *code).is_some())
        && canisters_fit(floor, tile, t.count as usize)
}

fn canisters_fit(floor: &Floor, tile: usize, count: usize) -> bool {
    let s = &floor.settings;
    let most = s.width as i64 - s.length as i64;
    let d = s.length as i64 + s.gap as i64;
    let all = &floor.canisters[16 * tile..16 * tile + 16];
    for i in 0..16 {
        if i >= count {
            if all[i] != Canister::ZERO {
                return false;
            }
            continue;
        }
        if all[i].number == 0 || all[i].a as i64 > most || all[i].b as i64 > most {
            return false;
        }
        for j in i + 1..count {
            let apart_a = (all[i].a as i64 - all[j].a as i64).abs();
            let apart_b = (all[i].b as i64 - all[j].b as i64).abs();
            if all[i].number >= all[j].number || (apart_a < d && apart_b < d) {
                return false;
            }
        }
    }
    true
}

fn numbers_fit(floor: &Floor) -> bool {
    let mut seen: Vec<u32> = Vec::new();
    for tile in 0..tiles(floor) {
        for place in 0..floor.tiles[tile].count as usize {
            let number = floor.canisters[16 * tile + place].number;
            if number > floor.counters.last || seen.contains(&number) {
                return false;
            }
            seen.push(number);
        }
    }
    let c = &floor.counters;
    let mut hoppers = 0;
    for tile in 0..tiles(floor) {
        hoppers += (floor.settings.hoppers >> tile & 1) as usize;
    }
    let mut gone = 0;
    for (rank, count) in c.delivered.iter().enumerate() {
        if rank >= hoppers && *count != 0 {
            return false;
        }
        gone += *count as i64;
    }
    c.booked as i64 == gone + seen.len() as i64 && c.booked <= c.last
}

fn layouts_fit(floor: &Floor) -> bool {
    let mut last: Option<String> = None;
    let mut ended = false;
    for layout in &floor.layouts {
        if layout.name == 0 && layout.set == 0 {
            ended = true;
            continue;
        }
        let Some(name) = letters(layout.name) else {
            return false;
        };
        if ended || last.is_some_and(|last| last >= name) {
            return false;
        }
        for tile in 0..64 {
            let runs = layout.set >> tile & 1 == 1;
            let hopper = floor.settings.hoppers >> tile & 1 == 1;
            if (runs && tile >= tiles(floor)) || (hopper && !runs) {
                return false;
            }
        }
        last = Some(name);
    }
    true
}

/// The letters of a name in memory, if it is one.
fn letters(name: u64) -> Option<String> {
    let mut text = String::new();
    for at in 0..8 {
        let byte = (name >> (56 - 8 * at)) as u8;
        match byte {
            b'A'..=b'Z' if text.len() == at => text.push(byte.into()),
            0 => {}
            _ => return None,
        }
    }
    (!text.is_empty()).then_some(text)
}
