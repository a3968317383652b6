//! When at the latest all that has a live path is delivered: the call held to
//! the paper, floors for it, and what the runs met of it.

use std::collections::BTreeSet;

use oracle::random::{self, Rng};
use oracle::{Bounded, Floor, Grid, Settings, Tile, NONE};

use crate::call::{by_library, Call, Outcome, Trouble};
use crate::tally::{add, line};
use crate::{makers, page, promise};

/// 63 tiles of sixteen canisters, which cross a tile in 59,999 rounds.
const GREATEST: u32 = 63 * (1 + 1_008 * 59_999);

/// Most rounds of a floor that is run up to its bound.
const MOST: u64 = 600;

fn broken(text: String) -> Result<(), Trouble> {
    Err(Trouble::promise("bound", text))
}

/// Holds an accepted bound to the canisters on tiles with a live path, and to
/// those that were booked and not delivered.
pub fn check(floor: &Floor, answer: &Bounded) -> Result<(), Trouble> {
    if answer.refusal == 30 {
        return Ok(());
    }
    let waiting = promise::numbers_where(floor, &promise::live(floor), true).len();
    let counters = &floor.counters;
    let here = u64::from(counters.booked).saturating_sub(counters.delivered_in_all());
    let all = u64::from(answer.connected) + u64::from(answer.unconnected);
    let fits = answer.refusal == 0
        && answer.connected as usize == waiting
        && all == here
        && u64::from(answer.rounds) == promise::bound(&floor.settings, waiting)
        && answer.rounds <= GREATEST;
    match fits {
        true => Ok(()),
        false => broken(format!("{answer:?} for {waiting} of {here} canisters")),
    }
}

/// Makes as many rounds as the bound tells, by the library alone. They report
/// what has a live path, each number once, and leave all others; of these the
/// bound tells then.
pub fn spend(first: &Floor, counts: &mut Counts) -> Result<(), Trouble> {
    let told = bound_of(first)?;
    let mut floor = *first;
    let mut reported: Vec<u32> = Vec::new();
    for _ in 0..told.rounds {
        let outcome = by_library(&floor, &Call::Round);
        reported.extend(outcome.report().delivered());
        floor = outcome.floor_after(&Call::Round, &floor);
    }
    reported.sort_unstable();
    let live = promise::live(first);
    let waiting = promise::numbers_where(first, &live, true);
    if reported.len() != told.connected as usize || !reported.iter().eq(&waiting) {
        return broken(format!("{told:?}, but {reported:?} reported"));
    }
    let left: BTreeSet<u32> = promise::held(&floor).collect();
    if left != promise::numbers_where(first, &live, false) {
        return broken(format!("{told:?}, and {left:?} left"));
    }
    let again = bound_of(&floor)?;
    let rest = Bounded {
        rounds: floor.settings.tile_count() as u32 - 1,
        connected: 0,
        ..told
    };
    if again != rest {
        return broken(format!("{told:?}, then {again:?}"));
    }
    counts.note_spent(first, &told);
    Ok(())
}

/// The library's bound of a well-formed floor.
fn bound_of(floor: &Floor) -> Result<Bounded, Trouble> {
    match by_library(floor, &Call::Bound) {
        Outcome::Bounded(answer) if answer.refusal == 0 => Ok(answer),
        _ => Err(Trouble::promise("bound", "no bound is told".into())),
    }
}

const CANISTERS: [&str; 4] = ["none", "all connected", "none connected", "some cut off"];
const WITHOUT: [&str; 2] = ["on stopped tiles alone", "on running ones too"];
const HOPPERS: [&str; 4] = ["1", "2", "3", "4"];
const CROSSINGS: [&str; 4] = ["1", "2 to 255", "256 to 59,998", "59,999"];
const ROUNDS: [&str; 5] = [
    "1 to 255",
    "256 to 65,535",
    "65,536 to 2,147,483,647",
    "more",
    "the greatest",
];
const DISTANCES: [&str; 2] = ["a live path, no distance", "a distance, no live path"];
const MALFORMED: [&str; 2] = ["without canisters", "with canisters"];
const SPENT: [&str; 3] = ["some cut off", "several hoppers", "rounds"];

#[derive(Default)]
pub struct Counts {
    canisters: [u64; CANISTERS.len()],
    /// Where canisters without a live path stand.
    without: [u64; WITHOUT.len()],
    hoppers: [u64; HOPPERS.len()],
    /// By M.
    crossings: [u64; CROSSINGS.len()],
    rounds: [u64; ROUNDS.len()],
    /// Floors where a tile with canisters has one without the other.
    distances: [u64; DISTANCES.len()],
    malformed: [u64; MALFORMED.len()],
    /// Floors run up to their bound, and what there was of them.
    floors: u64,
    spent: [u64; SPENT.len()],
}

impl Counts {
    pub fn note(&mut self, floor: &Floor, answer: &Bounded) {
        let held = floor.tiles.iter().any(|tile| tile.count > 0);
        if answer.refusal != 0 {
            self.malformed[usize::from(held)] += 1;
            return;
        }
        self.canisters[match (answer.connected, answer.unconnected) {
            (0, 0) => 0,
            (_, 0) => 1,
            (0, _) => 2,
            _ => 3,
        }] += 1;
        let settings = &floor.settings;
        self.hoppers[settings.hopper_count() - 1] += 1;
        self.crossings[match settings.span() / settings.travel {
            0 => 0,
            1..=254 => 1,
            59_998 => 3,
            _ => 2,
        }] += 1;
        self.rounds[match answer.rounds {
            GREATEST => 4,
            0..=255 => 0,
            256..=65_535 => 1,
            65_536..=0x7fff_ffff => 2,
            _ => 3,
        }] += 1;
        self.note_tiles(floor);
    }

    fn note_tiles(&mut self, floor: &Floor) {
        let live = promise::live(floor);
        let held = |tile: &usize| floor.tiles[*tile].count > 0;
        let tiles: Vec<usize> = (0..live.len()).filter(held).collect();
        let runs = |tile: &usize| floor.tiles[*tile].running == 1;
        let near = |tile: &usize| floor.tiles[*tile].distance != NONE;
        let mut without = tiles.iter().filter(|tile| !live[**tile]).peekable();
        if without.peek().is_some() {
            self.without[usize::from(without.any(runs))] += 1;
        }
        let alone = [
            tiles.iter().any(|tile| live[*tile] && !near(tile)),
            tiles.iter().any(|tile| !live[*tile] && near(tile)),
        ];
        for (count, met) in self.distances.iter_mut().zip(alone) {
            *count += u64::from(met);
        }
    }

    fn note_spent(&mut self, floor: &Floor, told: &Bounded) {
        self.floors += 1;
        let met = [
            u64::from(told.unconnected > 0),
            u64::from(floor.settings.hopper_count() > 1),
            u64::from(told.rounds),
        ];
        add(&mut self.spent, &met);
    }

    /// How many floors were run up to their bound.
    pub fn spent(&self) -> u64 {
        self.floors
    }

    pub fn add(&mut self, more: &Counts) {
        add(&mut self.canisters, &more.canisters);
        add(&mut self.without, &more.without);
        add(&mut self.hoppers, &more.hoppers);
        add(&mut self.crossings, &more.crossings);
        add(&mut self.rounds, &more.rounds);
        add(&mut self.distances, &more.distances);
        add(&mut self.malformed, &more.malformed);
        self.floors += more.floors;
        add(&mut self.spent, &more.spent);
    }

    /// Lines of counts, each with its name.
    pub fn lines(&self) -> Vec<(String, Vec<(String, u64)>)> {
        vec![
            line("bounds, canisters:", &CANISTERS, &self.canisters),
            line("bounds, without a live path:", &WITHOUT, &self.without),
            line("bounds by hoppers:", &HOPPERS, &self.hoppers),
            line("bounds by M:", &CROSSINGS, &self.crossings),
            line("bounds in rounds:", &ROUNDS, &self.rounds),
            line("bounds where a tile has", &DISTANCES, &self.distances),
            line("bounds of malformed floors:", &MALFORMED, &self.malformed),
            line("run up to their bound:", &SPENT, &self.spent),
        ]
    }
}

/// Any well-formed floor with one to three lines of stopped tiles across it,
/// at times with tiles left out.
pub fn walled_floor(rng: &mut Rng) -> Floor {
    let mut floor = page::any_floor(rng);
    let settings = floor.settings;
    for _ in 0..rng.range(1, 3) {
        let upright = rng.chance(1, 2);
        let lines = match upright {
            true => settings.columns,
            false => settings.rows,
        };
        let line = rng.below(lines.into()) as usize;
        for spot in Grid::of(&settings).spots() {
            let place = if upright { spot.column } else { spot.row };
            if place == line && !settings.is_hopper(spot.tile) && !rng.chance(1, 8) {
                let tile = &mut floor.tiles[spot.tile];
                *tile = Tile {
                    running: 0,
                    count: tile.count,
                    ..Tile::IDLE
                };
            }
        }
    }
    floor
}

/// A packed floor of 8 x 8 tiles of 60,000 mm, with up to four hoppers and at
/// times some tiles stopped. With one hopper, l 2 and none stopped its bound
/// is the greatest.
pub fn slow_floor(rng: &mut Rng) -> Floor {
    let length: u16 = rng.pick(&[2, 2, 3, 200, 14_000]);
    let mut settings = Settings {
        columns: 8,
        rows: 8,
        hoppers: 0,
        sources: 0,
        width: 60_000,
        length,
        gap: 15_000 - length,
        travel: rng.range(1, u64::from(length) - 1) as u16,
    };
    let hoppers = rng.pick(&[1, 1, 2, 4]);
    settings.hoppers = random::hoppers(rng, &settings, hoppers);
    let near = rng.chance(1, 2);
    let mut floor = makers::packed_with(rng, settings, near);
    for _ in 0..rng.pick(&[0, 1, 8, 30]) {
        let tile = rng.below(64) as usize;
        floor.tiles[tile].running = settings.is_hopper(tile).into();
    }
    floor
}

/// A floor with something connected and at most `MOST` rounds to its bound, if
/// one is met.
pub fn small_floor(rng: &mut Rng) -> Option<Floor> {
    let small = |floor: &Floor| {
        let waiting = promise::numbers_where(floor, &promise::live(floor), true).len();
        waiting > 0 && promise::bound(&floor.settings, waiting) <= MOST
    };
    let mut floors = (0..60).map(|_| match rng.chance(1, 3) {
        true => walled_floor(rng),
        false => random::floor(rng),
    });
    floors.find(small)
}

#[cfg(test)]
mod tests {
    use super::*;
    use oracle::{only, Canister};

    /// Document 01's first trial.
    fn trial() -> Floor {
        let settings = Settings {
            columns: 2,
            rows: 1,
            hoppers: only(1),
            sources: only(0),
            width: 100,
            length: 30,
            gap: 10,
            travel: 20,
        };
        let number = 5;
        let canister = Canister { number, a: 0, b: 0 };
        oracle::book(&oracle::fresh(settings).floor, 0, canister).floor
    }

    #[test]
    fn the_answer_alone_passes() {
        let floor = trial();
        let answer = oracle::bound(&floor);
        assert_eq!(answer.rounds, 5);
        assert!(check(&floor, &answer).is_ok());
        let changes: [fn(&mut Bounded); 4] = [
            |answer| answer.rounds = 4,
            |answer| answer.connected = 0,
            |answer| answer.unconnected = 1,
            |answer| answer.refusal = 1,
        ];
        for change in changes {
            let mut other = answer;
            change(&mut other);
            assert!(check(&floor, &other).is_err(), "{other:?}");
        }
    }

    #[test]
    fn the_library_keeps_its_bound() {
        let mut counts = Counts::default();
        assert!(spend(&trial(), &mut counts).is_ok());
        assert_eq!((counts.floors, counts.spent), (1, [0, 0, 5]));
    }
}
