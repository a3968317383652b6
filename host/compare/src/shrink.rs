//! Looks for the smallest case that shows the same trouble.

use oracle::{
    only, Booking, Canister, Counters, Floor, Grid, Layout, Settings, Side, Tile, MAX_HOPPERS,
    NONE, NO_SIDE, PLACES,
};

use crate::barges::Named;
use crate::call::{Call, Trouble};
use crate::images::{self, Line};
use crate::makers;
use crate::page;
use crate::plans;
use crate::runs::{before_last, replay, Case, Failure};
use crate::throughput;

const TRIES: usize = 40_000;
/// For cases of more than a thousand calls, each of which is long in trying.
const FEWER_TRIES: usize = 500;

pub fn shrink(failure: &Failure) -> (Case, Trouble) {
    // A smaller floor than one with known damage may be sound.
    let promise = failure.trouble.refusals.is_none();
    let kept_as_it_is = promise && failure.case.must.is_some();
    let tries = match failure.case.calls.len() {
        0..=1_000 => TRIES,
        _ => FEWER_TRIES,
    };
    let mut search = Search {
        case: failure.case.clone(),
        trouble: failure.trouble.clone(),
        left: if kept_as_it_is { 0 } else { tries },
    };
    let last = failure.case.calls.last().cloned();
    let single = Case {
        first: before_last(&failure.case),
        calls: last.into_iter().collect(),
        ..failure.case.clone()
    };
    search.accept(single);
    search.fewer_calls();
    while search.left > 0 && search.pass() {}
    (search.case, search.trouble)
}

struct Search {
    case: Case,
    trouble: Trouble,
    left: usize,
}

impl Search {
    /// Takes a case if it still shows the trouble.
    fn accept(&mut self, case: Case) -> bool {
        if self.left == 0 || case == self.case {
            return false;
        }
        let begins_well = case.first == Floor::ZERO || oracle::well_formed(&case.first);
        if case.sound && self.trouble.refusals.is_none() && !begins_well {
            return false;
        }
        self.left -= 1;
        match replay(&case) {
            Some(trouble) if trouble.like(&self.trouble) => {
                self.case = case;
                self.trouble = trouble;
                true
            }
            _ => false,
        }
    }

    fn fewer_calls(&mut self) {
        let mut size = self.case.calls.len();
        while size > 0 {
            let mut start = 0;
            while start < self.case.calls.len() {
                let mut case = self.case.clone();
                let end = (start + size).min(case.calls.len());
                case.calls.drain(start..end);
                if !self.accept(case) {
                    start += size;
                }
            }
            size /= 2;
        }
    }

    /// One pass over all ways to make the case smaller.
    fn pass(&mut self) -> bool {
        let mut smaller = false;
        for change in floor_changes(&self.case.first) {
            let mut case = self.case.clone();
            if change.apply(&mut case) {
                let resized = resize_buffers(&self.case, &case);
                smaller |= self.accept(case) || resized.is_some_and(|case| self.accept(case));
            }
        }
        for at in 0..self.case.calls.len() {
            let Some(call) = self.case.calls.get(at) else {
                break;
            };
            for call in smaller_calls(&self.case.first, call) {
                let mut case = self.case.clone();
                case.calls[at] = call;
                if self.accept(case) {
                    smaller = true;
                    break;
                }
            }
        }
        smaller
    }
}

enum Change {
    Crop(Line),
    Empty(usize),
    Hopper(usize),
    Remove(usize, usize),
    Layout(usize),
    Tile(usize, fn(&mut Tile)),
    Place(usize, fn(&mut Canister)),
    Floor(fn(&mut Floor)),
}

const TILE_CHANGES: [fn(&mut Tile); 4] = [
    |tile| tile.token = NO_SIDE,
    |tile| (tile.distance, tile.next) = (NONE, NO_SIDE),
    |tile| tile.running = 1,
    |tile| *tile = Tile::ZERO,
];

const PLACE_CHANGES: [fn(&mut Canister); 5] = [
    |place| *place = Canister::ZERO,
    |place| place.a = 0,
    |place| place.b = 0,
    |place| place.a /= 2,
    |place| place.b /= 2,
];

const FLOOR_CHANGES: [fn(&mut Floor); 9] = [
    |floor| *floor = Floor::ZERO,
    |floor| floor.layouts = Floor::ZERO.layouts,
    clear_unused,
    renumber,
    lower_distances,
    |floor| {
        floor.counters.booked = booked_and_here(&floor.counters);
        floor.counters.delivered = [0; MAX_HOPPERS];
    },
    |floor| floor.counters.last = floor.counters.booked,
    |floor| floor.settings.sources = 0,
    |floor| {
        if *floor != Floor::ZERO {
            plain_measures(&mut floor.settings);
        }
    },
];

/// Booked without all that was delivered.
fn booked_and_here(counters: &Counters) -> u32 {
    let gone = counters.delivered_in_all() as u32;
    counters.booked.wrapping_sub(gone)
}

fn plain_measures(settings: &mut Settings) {
    (settings.width, settings.length) = (100, 30);
    (settings.gap, settings.travel) = (10, 20);
}

fn floor_changes(floor: &Floor) -> Vec<Change> {
    let mut changes: Vec<Change> = Line::all().map(Change::Crop).collect();
    changes.extend(FLOOR_CHANGES.map(Change::Floor));
    changes.extend((0..floor.layout_count()).rev().map(Change::Layout));
    let used = |tile: &usize| floor.tiles[*tile] != Tile::ZERO;
    for tile in (0..64).filter(used) {
        changes.push(Change::Empty(tile));
        changes.push(Change::Hopper(tile));
        let count = usize::from(floor.tiles[tile].count).min(PLACES);
        changes.extend((0..count).rev().map(|at| Change::Remove(tile, at)));
        changes.extend(TILE_CHANGES.map(|change| Change::Tile(tile, change)));
    }
    for place in (0..1_024).filter(|place| floor.canisters[*place] != Canister::ZERO) {
        changes.extend(PLACE_CHANGES.map(|change| Change::Place(place, change)));
    }
    changes
}

impl Change {
    fn apply(&self, case: &mut Case) -> bool {
        match self {
            Change::Crop(line) => return crop(case, *line).is_some(),
            Change::Empty(tile) => while remove(&mut case.first, *tile, 0) {},
            Change::Hopper(tile) => return drop_hopper(&mut case.first, *tile),
            Change::Remove(tile, at) => return remove(&mut case.first, *tile, *at),
            Change::Layout(at) => {
                case.first.layouts[*at..].rotate_left(1);
                case.first.layouts[7] = Layout::ZERO;
            }
            Change::Tile(tile, change) => change(&mut case.first.tiles[*tile]),
            Change::Place(place, change) => change(&mut case.first.canisters[*place]),
            Change::Floor(change) => change(&mut case.first),
        }
        true
    }
}

/// A changed case whose buffers follow the length of the image or page.
fn resize_buffers(before: &Case, after: &Case) -> Option<Case> {
    let old = makers::image(&before.first)?.len();
    let new = makers::image(&after.first)?.len();
    let mut case = after.clone();
    let mut resized = false;
    for call in &mut case.calls {
        let (size, new, old) = match call {
            Call::Write { size } => (size, new, old),
            Call::Page { size } => {
                let lengths = [after, before].map(|case| page::length(&case.first.settings));
                (size, lengths[0], lengths[1])
            }
            _ => continue,
        };
        *size = (*size + new).checked_sub(old)?;
        resized = old != new;
    }
    resized.then_some(case)
}

/// The least distances in the same order.
fn lower_distances(floor: &mut Floor) {
    let tiles = floor.settings.tile_count().min(64);
    let used = &mut floor.tiles[..tiles];
    let mut known: Vec<u8> = used.iter().map(|tile| tile.distance).collect();
    known.retain(|distance| *distance != 0 && *distance != NONE);
    known.sort_unstable();
    known.dedup();
    for tile in used {
        if let Ok(at) = known.binary_search(&tile.distance) {
            tile.distance = at as u8 + 1;
        }
    }
}

/// Makes a plain tile of a hopper, with its counter taken off.
fn drop_hopper(floor: &mut Floor, tile: usize) -> bool {
    let hoppers = floor.settings.hopper_count();
    let Some(rank) = floor.settings.rank(tile) else {
        return false;
    };
    if !(2..=MAX_HOPPERS).contains(&hoppers) {
        return false;
    }
    let counters = &mut floor.counters;
    counters.booked = counters.booked.wrapping_sub(counters.delivered[rank]);
    counters.delivered[rank..].rotate_left(1);
    counters.delivered[MAX_HOPPERS - 1] = 0;
    floor.settings.hoppers &= !(1 << tile);
    floor.tiles[tile].distance = NONE;
    true
}

/// Takes a canister off, and off the booked counter.
fn remove(floor: &mut Floor, tile: usize, at: usize) -> bool {
    let count = usize::from(floor.tiles[tile].count);
    if at >= count || count > PLACES {
        return false;
    }
    let places = &mut floor.canisters[tile * PLACES..][..PLACES];
    places.copy_within(at + 1..count, at);
    places[count - 1] = Canister::ZERO;
    floor.tiles[tile].count -= 1;
    floor.counters.booked = floor.counters.booked.wrapping_sub(1);
    true
}

fn clear_unused(floor: &mut Floor) {
    let tiles = floor.settings.tile_count().min(64);
    for tile in 0..64 {
        let count = usize::from(floor.tiles[tile].count).min(PLACES);
        let used = if tile < tiles { count } else { 0 };
        floor.canisters[tile * PLACES + used..][..PLACES - used].fill(Canister::ZERO);
    }
    floor.tiles[tiles..].fill(Tile::ZERO);
}

/// Numbers from 1 in the same order.
fn renumber(floor: &mut Floor) {
    let mut numbers: Vec<u32> = floor.canisters.iter().map(|held| held.number).collect();
    numbers.retain(|number| *number != 0);
    numbers.sort_unstable();
    numbers.dedup();
    for canister in &mut floor.canisters {
        if let Ok(at) = numbers.binary_search(&canister.number) {
            canister.number = at as u32 + 1;
        }
    }
    floor.counters = Counters {
        last: numbers.len() as u32,
        booked: booked_and_here(&floor.counters),
        delivered: [0; MAX_HOPPERS],
    };
}

/// Takes away one line of tiles.
fn crop(case: &mut Case, line: Line) -> Option<()> {
    let old = case.first;
    let tiles = old.settings.tile_count();
    if !(1..=64).contains(&tiles) {
        return None;
    }
    let (columns, rows) = line.left(old.settings.columns, old.settings.rows)?;
    let kept = |tile: u8| line.kept(old.settings.rows, tile);
    let mut floor = Floor {
        settings: Settings {
            columns,
            rows,
            hoppers: line.kept_set(old.settings.rows, old.settings.hoppers)?,
            sources: 0,
            ..old.settings
        },
        counters: old.counters,
        layouts: old.layouts.map(|layout| Layout {
            set: line.rest_of_set(old.settings.rows, layout.set),
            ..layout
        }),
        ..Floor::ZERO
    };
    for tile in 0..tiles {
        let Some(new) = kept(tile as u8).map(usize::from) else {
            let lost = u32::from(old.tiles[tile].count);
            floor.counters.booked = floor.counters.booked.wrapping_sub(lost);
            continue;
        };
        floor.tiles[new] = old.tiles[tile];
        floor.canisters[new * PLACES..][..PLACES].copy_from_slice(old.places(tile));
        floor.settings.sources |= u64::from(old.settings.is_source(tile)) << new;
    }
    turn_inwards(&mut floor);
    rename_tiles(&mut case.calls, tiles, kept)?;
    case.first = floor;
    Some(())
}

/// The calls with their tiles' new numbers; none if one of them is gone.
fn rename_tiles(calls: &mut [Call], tiles: usize, kept: impl Fn(u8) -> Option<u8>) -> Option<()> {
    for call in calls {
        if let Call::BookList { list } = call {
            let tiles_of = list
                .iter_mut()
                .filter(|entry| (entry.tile as usize) < tiles);
            for entry in tiles_of {
                entry.tile = kept(entry.tile as u8)?.into();
            }
        }
        if let Call::Release { plan, .. } = call {
            for entry in &mut plan.entries {
                if (entry.tile as usize) < tiles {
                    entry.tile = kept(entry.tile as u8).map_or(u32::MAX, u32::from);
                }
            }
        }
        if let Call::Book { tile, .. }
        | Call::BookAnywhere { tile, .. }
        | Call::Stop { tile }
        | Call::Repair { tile }
        | Call::Read { tile } = call
        {
            if (*tile as usize) < tiles {
                *tile = kept(*tile as u8)?.into();
            }
        }
    }
    Some(())
}

/// Drops arrows and turns that face no tile, and distances of C or more.
fn turn_inwards(floor: &mut Floor) {
    let grid = Grid::of(&floor.settings);
    for spot in grid.spots() {
        let outside =
            |code| Side::from_code(code).is_some_and(|side| grid.neighbour(spot, side).is_none());
        let tile = &mut floor.tiles[spot.tile];
        let far = usize::from(tile.distance) >= floor.settings.tile_count();
        if outside(tile.next) || far {
            (tile.distance, tile.next) = (NONE, NO_SIDE);
        }
        if outside(tile.token) {
            tile.token = NO_SIDE;
        }
    }
}

fn smaller_calls(floor: &Floor, call: &Call) -> Vec<Call> {
    match call {
        Call::Book { tile, canister } => {
            let next = floor.counters.last.wrapping_add(1);
            let with = |number, a, b| Call::Book {
                tile: *tile,
                canister: Canister { number, a, b },
            };
            vec![
                with(next.min(canister.number), canister.a, canister.b),
                with(canister.number, 0, canister.b),
                with(canister.number, canister.a, 0),
            ]
        }
        Call::BookList { list } => smaller_lists(floor, list),
        Call::BookAnywhere { tile, number } => {
            let next = floor.counters.last.wrapping_add(1);
            vec![Call::BookAnywhere {
                tile: *tile,
                number: next.min(*number),
            }]
        }
        Call::Write { size } => vec![
            Call::Write { size: size / 2 },
            Call::Write {
                size: size.saturating_sub(1),
            },
        ],
        Call::Page { size } => [size / 2, size.saturating_sub(1)]
            .map(|size| Call::Page { size })
            .into(),
        Call::Load { bytes } => images::smaller(bytes)
            .into_iter()
            .map(|bytes| Call::Load { bytes })
            .collect(),
        Call::Fresh { settings } => smaller_settings(settings)
            .map(|settings| Call::Fresh { settings })
            .into(),
        Call::Feed { record, count } => throughput::smaller(record, *count),
        Call::Barge(named) => smaller_barges(named)
            .into_iter()
            .map(|named| Call::Barge(named.into()))
            .collect(),
        _ => plans::smaller(call),
    }
}

/// Each floor made smaller, as for a lone floor, with the same allowance and
/// with one that has as much left; a smaller allowance; a plainer call.
fn smaller_barges(named: &Named) -> Vec<Named> {
    let mut tries = Vec::new();
    for (at, floor) in named.barge.floors.iter().enumerate() {
        let own = at == named.floor as usize;
        let case = Case {
            first: *floor,
            calls: own.then(|| named.call.clone()).into_iter().collect(),
            drain: false,
            must: None,
            sound: false,
            either: false,
        };
        for change in rough_changes(floor) {
            let mut case = case.clone();
            if !change.apply(&mut case) || case.first == *floor {
                continue;
            }
            let mut less = named.clone();
            less.barge.floors[at] = case.first;
            if let (true, Some(call)) = (own, case.calls.pop()) {
                less.call = call;
            }
            let gone = named.barge.total().saturating_sub(less.barge.total());
            tries.push(less.clone());
            less.barge.allowance = less.barge.allowance.saturating_sub(gone);
            tries.push(less);
        }
    }
    for least in [1, 2, 4_032, 4_033] {
        let mut less = named.clone();
        less.barge.allowance = less.barge.allowance.min(least);
        tries.push(less);
    }
    if let Some(floor) = named.barge.floors.get(named.floor as usize) {
        let calls = smaller_calls(floor, &named.call).into_iter();
        tries.extend(calls.map(|call| Named {
            call,
            ..named.clone()
        }));
    }
    tries
}

/// Two tiles without canisters.
const PLAIN: Settings = Settings {
    columns: 2,
    rows: 1,
    hoppers: 2,
    sources: 0,
    width: 100,
    length: 30,
    gap: 10,
    travel: 20,
};

/// Changes of a floor of a barge: few of them, as each has four floors. None of
/// the plain floor and of the all-zero one, so that nothing leads back.
fn rough_changes(floor: &Floor) -> Vec<Change> {
    let plain = |floor: &mut Floor| *floor = oracle::fresh(PLAIN).floor;
    if *floor == Floor::ZERO || *floor == oracle::fresh(PLAIN).floor {
        return Vec::new();
    }
    let mut changes = vec![Change::Floor(plain)];
    let held: usize = floor.tiles.iter().map(|tile| usize::from(tile.count)).sum();
    let all = floor_changes(floor).into_iter();
    changes.extend(all.filter(|change| match change {
        Change::Place(..) => false,
        Change::Remove(..) | Change::Tile(..) => held < 20,
        _ => true,
    }));
    changes
}

/// Half of a list, one entry less, or a lower number.
fn smaller_lists(floor: &Floor, list: &[Booking]) -> Vec<Call> {
    let half = list.len() / 2;
    let mut lists = vec![list[..half].to_vec(), list[half..].to_vec()];
    for at in 0..list.len() {
        let mut fewer = list.to_vec();
        fewer.remove(at);
        lists.push(fewer);
        let mut lower = list.to_vec();
        let next = floor.counters.last.saturating_add(at as u32 + 1);
        lower[at].canister.number = next.min(lower[at].canister.number);
        lists.push(lower);
    }
    let book = |list| Call::BookList { list };
    lists.into_iter().map(book).collect()
}

/// Plain measures, one hopper, the first four tiles alone, no fill tiles.
fn smaller_settings(settings: &Settings) -> [Settings; 4] {
    let mut plain = *settings;
    plain_measures(&mut plain);
    let mut two = *settings;
    (two.columns, two.rows, two.hoppers, two.sources) = (2, 1, only(1), 0);
    let mut four = *settings;
    (four.columns, four.rows) = (2, 2);
    (four.hoppers, four.sources) = (settings.hoppers & 15, settings.sources & 15);
    let mut none = *settings;
    none.sources = 0;
    [plain, two, four, none]
}
