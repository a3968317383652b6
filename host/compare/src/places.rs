//! Bookings without a place (request [1]): what the floor before asks for, and
//! what the runs met of them.

use ::ceromby::raw as ceromby;
use oracle::random::{self, Rng};
use oracle::{Canister, Floor, PlaceAnswer, Settings, PLACES};

use crate::call::{Call, Trouble};
use crate::makers;

/// Where accepted ones were placed. The last two may be among those before.
const FOUND: [&str; 5] = [
    "at (0, 0)",
    "in the first row",
    "in a higher row",
    "at b = U - l",
    "at a = U - l",
];
const REFUSED: [&str; 6] = [
    "40, fewer than sixteen",
    "40, sixteen",
    "31, number used too",
    "31, no place too",
    "33, no place too",
    "6, stopped too",
];
const SORTS: [&str; 2] = ["without, then with a place", "with, then without"];

#[derive(Default)]
pub struct Counts {
    found: [u64; FOUND.len()],
    refused: [u64; REFUSED.len()],
    /// Accepted bookings of the two sorts, one after the other on one tile.
    pub mixed: [u64; SORTS.len()],
}

impl Counts {
    pub fn note(&mut self, before: &Floor, tile: u32, number: u32, answer: &PlaceAnswer) {
        let span = before.settings.span();
        let PlaceAnswer { a, b, .. } = *answer;
        let mut refused = |at: usize, fits: bool| self.refused[at] += u64::from(fits);
        let used = number <= before.counters.last;
        let full = || lowest(&before.settings, before.members(tile as usize)).is_none();
        match answer.refusal {
            0 => {
                let row = match (a, b) {
                    (0, 0) => 0,
                    (_, 0) => 1,
                    _ => 2,
                };
                self.found[row] += 1;
                self.found[3] += u64::from(b == span);
                self.found[4] += u64::from(a == span);
            }
            40 => {
                let sixteen = usize::from(before.tiles[tile as usize].count) == PLACES;
                refused(usize::from(sixteen), true);
            }
            31 => {
                refused(2, used);
                refused(3, full());
            }
            33 => refused(4, full()),
            6 => refused(5, before.tiles[tile as usize].running == 0),
            _ => {}
        }
    }

    pub fn add(&mut self, more: &Counts) {
        let add = |counts: &mut [u64], more: &[u64]| {
            for (count, more) in counts.iter_mut().zip(more) {
                *count += more;
            }
        };
        add(&mut self.found, &more.found);
        add(&mut self.refused, &more.refused);
        add(&mut self.mixed, &more.mixed);
    }

    /// Lines of counts, each with its name.
    pub fn lines(&self) -> Vec<(String, Vec<(&'static str, u64)>)> {
        let line = |name: &str, names: &[&'static str], counts: &[u64]| {
            let cells = names.iter().copied().zip(counts.iter().copied());
            (name.to_string(), cells.collect())
        };
        vec![
            line("places found:", &FOUND, &self.found),
            line("bookings without a place:", &REFUSED, &self.refused),
            line("bookings in turn on a tile:", &SORTS, &self.mixed),
        ]
    }
}

/// The place with the lowest b, then the lowest a, that keeps the spacing. The
/// canisters beside a row are the same from where one comes within d of it to
/// where one ceases to be; so only the rows where such a strip begins matter.
pub fn lowest(settings: &Settings, members: &[Canister]) -> Option<(u16, u16)> {
    let span = i64::from(settings.width) - i64::from(settings.length);
    let spacing = i64::from(settings.length) + i64::from(settings.gap);
    let begins = |canister: &Canister| {
        let b = i64::from(canister.b);
        [b - spacing + 1, b + spacing]
    };
    let mut rows: Vec<i64> = members.iter().flat_map(begins).chain([0]).collect();
    rows.retain(|row| (0..=span).contains(row));
    rows.sort_unstable();
    let free = |row: i64| {
        let beside = |canister: &&Canister| (row - i64::from(canister.b)).abs() < spacing;
        let mut taken: Vec<i64> = members.iter().filter(beside).map(|c| c.a.into()).collect();
        taken.sort_unstable();
        let mut a = 0;
        for other in taken {
            if a > other - spacing {
                a = a.max(other + spacing);
            }
        }
        (a <= span).then_some((a as u16, row as u16))
    };
    rows.into_iter().find_map(free)
}

/// The answer that the floor before asks for, 40 included, and the place.
fn due(before: &Floor, tile: u32, number: u32) -> Result<(u16, u16), u8> {
    let tile = tile as usize;
    match before.tiles.get(tile) {
        Some(head) if tile < before.settings.tile_count() => match head.running {
            _ if before.settings.sources >> tile & 1 == 0 => Err(5),
            _ if number == 0 => Err(6),
            0 => Err(31),
            _ if number <= before.counters.last => Err(33),
            _ => lowest(&before.settings, before.members(tile)).ok_or(40),
        },
        _ => Err(4),
    }
}

fn broken(text: String) -> Result<(), Trouble> {
    Err(Trouble::promise("places", text))
}

/// Holds a booking without a place to what the floor before it asks for, and to
/// the library's booking at the place told.
pub fn check(before: &Floor, tile: u32, number: u32, answer: &PlaceAnswer) -> Result<(), Trouble> {
    if answer.refusal == 30 {
        return Ok(());
    }
    let PlaceAnswer { a, b, .. } = *answer;
    let told = match answer.refusal {
        0 => Ok((a, b)),
        refusal => Err(refusal),
    };
    let due = due(before, tile, number);
    if told != due {
        return broken(format!("a booking answers {told:?}, not {due:?}"));
    }
    let canister = ceromby::Canister { number, a, b };
    let there = ceromby::book(&convert::to_floor(before), tile, canister);
    let there = convert::from_answer(&there);
    let same = match answer.refusal {
        0 => there.refusal == 0 && there.floor == answer.floor,
        40 => there.refusal == 34,
        refusal => there.refusal == refusal,
    };
    match same {
        true => Ok(()),
        false => broken(format!("a booking at ({a}, {b}) answers {}", there.refusal)),
    }
}

/// A floor to fill: fresh, any, or with a tile of which few places are left.
pub fn floor(rng: &mut Rng, settings: Settings) -> Floor {
    match rng.below(4) {
        0 => oracle::fresh(settings).floor,
        1 => random::floor_with(rng, settings),
        _ => makers::nearly_full_floor(rng),
    }
}

/// A call of a list that fills a few tiles: bookings of both sorts, with other
/// calls between them.
pub fn list_call(rng: &mut Rng, floor: &Floor) -> Call {
    let fill = |tile: &u32| floor.settings.is_source(*tile as usize);
    let tiles = 0..floor.settings.tile_count() as u32;
    let few: Vec<u32> = tiles.filter(fill).take(2).collect();
    let tile = match few.is_empty() {
        true => random::any_tile(rng, floor),
        false => rng.pick(&few),
    };
    let number = match rng.below(16) {
        0 => floor.counters.last,
        1 => rng.below(3) as u32,
        _ => floor.counters.last.saturating_add(1),
    };
    match rng.below(32) {
        0..=13 => Call::BookAnywhere { tile, number },
        14..=21 => makers::booking_on(rng, floor, tile, number),
        22 | 23 => Call::Stop { tile },
        24..=26 => Call::Repair { tile },
        27 | 28 => makers::call(rng, floor),
        29 => makers::any_booking(rng, floor),
        _ => Call::Round,
    }
}
