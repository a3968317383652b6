//! Lists of bookings in one call (request [4]): how the runs make them, what
//! they are held to, and what was met of them.

use ::ceromby::raw as ceromby;
use oracle::random::{self, Rng};
use oracle::{Answer, Booking, Canister, Floor, LONGEST_LIST};

use crate::call::{Call, Trouble};
use crate::{makers, places, tally};

const LENGTHS: [&str; 8] = tally::lengths(["66 to 999", "1000 or more"]);
const MALFORMED: [&str; 3] = ["0", "1 to 64", "65 or more"];
/// The answers that an entry can receive.
const ANSWERS: [u8; 9] = [0, 30, 4, 5, 6, 7, 31, 33, 34];
const COURSES: [&str; 6] = [
    "two or more, all accepted",
    "64, all accepted",
    "two or more, all refused",
    "refused between accepted",
    "34 by an earlier entry",
    "33 by an earlier entry",
];

#[derive(Default)]
pub struct Counts {
    /// Lists on well-formed floors.
    lengths: [u64; LENGTHS.len()],
    malformed: [u64; MALFORMED.len()],
    entries: [u64; ANSWERS.len()],
    courses: [u64; COURSES.len()],
}

impl Counts {
    /// Notes a list as it was answered.
    pub fn note(&mut self, before: &Floor, list: &[Booking], refusal: u8) {
        let length = list.len();
        if !oracle::well_formed(before) {
            let size = usize::from(length > 0) + usize::from(length > LONGEST_LIST);
            self.malformed[size] += 1;
        } else {
            self.lengths[tally::length_group(length, 6 + usize::from(length > 999))] += 1;
        }
        if refusal != 0 {
            return;
        }
        for entry in list {
            let answer = ANSWERS.iter().position(|answer| *answer == entry.answer);
            if let Some(answer) = answer {
                self.entries[answer] += 1;
            }
            self.courses[4] += u64::from(entry.answer == 34 && clear(before, entry));
            let above = entry.canister.number > before.counters.last;
            self.courses[5] += u64::from(entry.answer == 33 && above);
        }
        let accepted = |entry: &Booking| entry.answer == 0;
        let all = list.iter().all(accepted);
        self.courses[0] += u64::from(all && length > 1);
        self.courses[1] += u64::from(all && length == LONGEST_LIST);
        self.courses[2] += u64::from(length > 1 && !list.iter().any(accepted));
        let between = || {
            let first = list.iter().position(accepted)?;
            let last = list.iter().rposition(accepted)?;
            Some(!list[first..last].iter().all(accepted))
        };
        self.courses[3] += u64::from(between().unwrap_or(false));
    }

    pub fn add(&mut self, more: &Counts) {
        let add = |counts: &mut [u64], more: &[u64]| {
            for (count, more) in counts.iter_mut().zip(more) {
                *count += more;
            }
        };
        add(&mut self.lengths, &more.lengths);
        add(&mut self.malformed, &more.malformed);
        add(&mut self.entries, &more.entries);
        add(&mut self.courses, &more.courses);
    }

    /// Lines of counts, each with its name.
    pub fn lines(&self) -> Vec<(String, Vec<(String, u64)>)> {
        let line = |name: &str, names: Vec<String>, counts: &[u64]| {
            let cells = names.into_iter().zip(counts.iter().copied());
            (name.to_string(), cells.collect())
        };
        let words = |names: &[&str]| names.iter().map(ToString::to_string).collect();
        let numbers = ANSWERS.iter().map(ToString::to_string).collect();
        vec![
            line("lists by entries:", words(&LENGTHS), &self.lengths),
            line(
                "lists on malformed floors:",
                words(&MALFORMED),
                &self.malformed,
            ),
            line("answers of entries:", numbers, &self.entries),
            line("lists:", words(&COURSES), &self.courses),
        ]
    }
}

/// Whether the floor's own canisters would leave an entry its place.
fn clear(floor: &Floor, entry: &Booking) -> bool {
    let spacing = u32::from(floor.settings.length) + u32::from(floor.settings.gap);
    let members = floor.members(entry.tile as usize);
    members
        .iter()
        .all(|other| other.clear_of(&entry.canister, spacing))
}

fn broken(text: String) -> Result<(), Trouble> {
    Err(Trouble::promise("lists of bookings", text))
}

/// Holds a list to the same bookings made by the library's single calls. More
/// than 64 are 42, whatever the floor, and nothing is written.
pub fn check(
    before: &Floor,
    handed: &[Booking],
    answer: &Answer,
    list: &[Booking],
) -> Result<(), Trouble> {
    let long = handed.len() > LONGEST_LIST;
    let due = if long { 42 } else { 0 };
    if answer.refusal != due {
        return broken(format!("a list answers {}, not {due}", answer.refusal));
    }
    let mut floor = convert::to_floor(before);
    let mut singly = handed.to_vec();
    for entry in singly.iter_mut().filter(|_| !long) {
        let canister = convert::to_canister(&entry.canister);
        let single = ceromby::book(&floor, entry.tile, canister);
        entry.answer = single.refusal;
        floor = single.floor;
    }
    let differ = (0..handed.len()).find(|at| list.get(*at) != Some(&singly[*at]));
    if let Some(at) = differ {
        return broken(format!("entry {at} isn't as the single booking leaves it"));
    }
    match convert::to_floor(&answer.floor) == floor {
        true => Ok(()),
        false => broken("the floor isn't that of the single bookings".into()),
    }
}

/// Mostly a few entries, at times as many as are allowed or one more.
fn length(rng: &mut Rng) -> usize {
    match rng.below(48) {
        0 => 63,
        1 => 64,
        2 => 65,
        3 => 1_000,
        4 => rng.range(66, 999) as usize,
        5 | 6 => 0,
        7..=10 => 1,
        _ => rng.range(2, 12) as usize,
    }
}

/// A list of any length.
pub fn any_list(rng: &mut Rng, floor: &Floor) -> Call {
    let length = length(rng);
    list_of(rng, floor, length)
}

/// A list of a few bookings.
pub fn few(rng: &mut Rng, floor: &Floor) -> Call {
    let length = rng.range(0, 6) as usize;
    list_of(rng, floor, length)
}

/// A list of so many entries. Their answers hold anything yet.
pub fn list_of(rng: &mut Rng, floor: &Floor, length: usize) -> Call {
    let mut list = match length <= LONGEST_LIST && rng.chance(1, 3) {
        true => sensible(rng, floor, length),
        false => rough(rng, floor, length),
    };
    for entry in &mut list {
        entry.answer = match rng.chance(1, 4) {
            true => 0,
            false => rng.draw() as u8,
        };
    }
    Call::BookList { list }
}

/// The fill tiles that run.
fn fill_tiles(floor: &Floor) -> Vec<u32> {
    let tiles = 0..floor.settings.tile_count().min(64) as u32;
    let open = |tile: &u32| {
        let tile = *tile as usize;
        floor.settings.is_source(tile) && floor.tiles[tile].running == 1
    };
    tiles.filter(open).collect()
}

/// Bookings one after the other on all fill tiles, at places that are free.
fn sensible(rng: &mut Rng, floor: &Floor, length: usize) -> Vec<Booking> {
    let tiles = fill_tiles(floor);
    let begin = rng.below(64) as usize;
    let mut number = floor.counters.last;
    let mut list: Vec<Booking> = Vec::new();
    for at in 0..length {
        let mut held = Vec::new();
        let tile = match tiles.get((begin + at) % tiles.len().max(1)) {
            Some(tile) => {
                let here = list.iter().filter(|entry| entry.tile == *tile);
                held.extend(here.map(|entry| entry.canister));
                held.extend_from_slice(floor.members(*tile as usize));
                *tile
            }
            None => random::any_tile(rng, floor),
        };
        number = number.saturating_add(rng.pick(&[1, 1, 1, 5]));
        let (a, b) = places::lowest(&floor.settings, &held).unwrap_or((0, 0));
        list.push(entry(tile, Canister { number, a, b }));
    }
    list
}

/// Bookings on few tiles, too close to each other or with a number of an
/// earlier one, and any others.
fn rough(rng: &mut Rng, floor: &Floor, length: usize) -> Vec<Booking> {
    let tiles = fill_tiles(floor);
    let tiles = &tiles[..tiles.len().min(3)];
    let mut last = floor.counters.last;
    let mut list: Vec<Booking> = Vec::new();
    for _ in 0..length {
        let tile = match tiles.is_empty() || rng.chance(1, 8) {
            true => random::any_tile(rng, floor),
            false => rng.pick(tiles),
        };
        let number = match rng.below(16) {
            0 => 0,
            1 | 2 => last,
            3 => rng.range(0, last.into()) as u32,
            _ => last.saturating_add(rng.range(1, 2) as u32),
        };
        last = last.max(number);
        let mut canister = makers::canister_on(rng, floor, tile, number);
        if !list.is_empty() && rng.chance(1, 3) {
            let near = rng.pick(&list).canister;
            (canister.a, canister.b) = (beside(rng, floor, near.a), beside(rng, floor, near.b));
        }
        list.push(entry(tile, canister));
    }
    list
}

/// At a coordinate, or less than d or just d from it.
fn beside(rng: &mut Rng, floor: &Floor, from: u16) -> u16 {
    let spacing = floor.settings.spacing() as u16;
    let by = rng.pick(&[0, spacing, spacing, spacing.saturating_sub(1)]);
    let place = match rng.chance(1, 2) {
        true => from.saturating_add(by),
        false => from.saturating_sub(by),
    };
    place.min(floor.settings.span())
}

fn entry(tile: u32, canister: Canister) -> Booking {
    Booking {
        tile,
        canister,
        answer: 0,
    }
}
