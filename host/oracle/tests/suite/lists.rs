//! Demand 3 on random lists of calls.

use std::collections::{BTreeMap, BTreeSet};

use crate::common::*;
use oracle::random::{self, Call, Rng};
use oracle::{
    book, book_anywhere, book_list, forget, keep, recall, repair, round, stop, well_formed,
    Booking, Floor, Grid, Report, Settings, Side,
};

/// What the paper lets us know about a list from its answers alone.
struct Record {
    numbers: BTreeSet<u32>,
    gone: BTreeSet<u32>,
    running: Vec<bool>,
    layouts: BTreeMap<[u8; 8], Vec<bool>>,
    booked: u32,
    delivered: [u32; 4],
}

impl Record {
    fn of(floor: &Floor) -> Record {
        Record {
            numbers: held(floor).into_iter().collect(),
            gone: BTreeSet::new(),
            running: tiles(floor).map(|t| floor.tiles[t].running == 1).collect(),
            layouts: layouts(floor),
            booked: floor.counters.booked,
            delivered: floor.counters.delivered,
        }
    }

    /// Makes a call and notes what came of it.
    fn make(&mut self, call: Call, floor: &Floor) -> (u8, Floor) {
        let (refusal, after, report) = perform(call, floor);
        if refusal != 0 {
            assert_eq!(after, *floor);
            assert_eq!(report, Report::ZERO);
            return (refusal, after);
        }
        match call {
            Call::Book { canister, .. } => self.add(canister.number),
            Call::BookAnywhere { number, .. } => self.add(number),
            Call::Stop { tile } => self.running[tile as usize] = false,
            Call::Repair { tile } => self.running[tile as usize] = true,
            Call::Keep { name } => {
                self.layouts.insert(name, self.running.clone());
            }
            Call::Forget { name } => assert!(self.layouts.remove(&name).is_some()),
            Call::Recall { name } => self.running = self.layouts[&name].clone(),
            Call::Round => {
                for rank in 0..4 {
                    assert!(report.at(rank).is_sorted_by(|x, y| x < y));
                    self.delivered[rank] += report.at(rank).len() as u32;
                }
                for number in report.delivered() {
                    assert!(self.gone.insert(number));
                }
                check_report(floor, &after, &report);
            }
        }
        (refusal, after)
    }

    /// Makes a list of bookings and notes each that was accepted.
    fn make_list(&mut self, list: &mut [Booking], floor: &Floor) -> Floor {
        let answer = book_list(floor, list);
        assert_eq!(answer.refusal, 0);
        for entry in list.iter().filter(|entry| entry.answer == 0) {
            self.add(entry.canister.number);
        }
        answer.floor
    }

    fn add(&mut self, number: u32) {
        assert!(self.numbers.insert(number));
        self.booked += 1;
    }

    fn check(&self, floor: &Floor) {
        check_places(floor);
        let now = held(floor);
        let mut all: Vec<u32> = now.iter().chain(&self.gone).copied().collect();
        all.sort_unstable();
        assert!(all.iter().eq(&self.numbers));
        assert_eq!(floor.counters.booked, self.booked);
        assert_eq!(floor.counters.delivered, self.delivered);
        assert!(tiles(floor).all(|t| (floor.tiles[t].running == 1) == self.running[t]));
        assert_eq!(layouts(floor), self.layouts);
    }
}

pub fn perform(call: Call, floor: &Floor) -> (u8, Floor, Report) {
    let answer = match call {
        Call::Book { tile, canister } => book(floor, tile, canister),
        Call::BookAnywhere { tile, number } => {
            let answer = book_anywhere(floor, tile, number);
            return (answer.refusal, answer.floor, Report::ZERO);
        }
        Call::Stop { tile } => stop(floor, tile),
        Call::Repair { tile } => repair(floor, tile),
        Call::Keep { name } => keep(floor, name),
        Call::Forget { name } => forget(floor, name),
        Call::Recall { name } => recall(floor, name),
        Call::Round => {
            let answer = round(floor);
            return (answer.refusal, answer.floor, answer.report);
        }
    };
    (answer.refusal, answer.floor, Report::ZERO)
}

fn tiles(floor: &Floor) -> std::ops::Range<usize> {
    0..floor.settings.tile_count()
}

/// The layouts by name, with the tiles that run in each.
fn layouts(floor: &Floor) -> BTreeMap<[u8; 8], Vec<bool>> {
    let used = floor.layouts.iter().filter(|layout| layout.name != 0);
    let runs = |set: u64| tiles(floor).map(|tile| set >> tile & 1 == 1).collect();
    used.map(|layout| (layout.name.to_be_bytes(), runs(layout.set)))
        .collect()
}

fn held(floor: &Floor) -> Vec<u32> {
    tiles(floor)
        .flat_map(|tile| floor.members(tile))
        .map(|canister| canister.number)
        .collect()
}

/// Spacing and borders.
fn check_places(floor: &Floor) {
    let s = &floor.settings;
    let span = s.width - s.length;
    let spacing = u32::from(s.length) + u32::from(s.gap);
    for tile in tiles(floor) {
        let members = floor.members(tile);
        for (at, one) in members.iter().enumerate() {
            assert!(one.a <= span && one.b <= span);
            for other in &members[..at] {
                let a = u32::from(one.a.abs_diff(other.a));
                let b = u32::from(one.b.abs_diff(other.b));
                assert!(a >= spacing || b >= spacing);
            }
        }
    }
}

/// Stopped tiles grant nothing and keep all they have.
fn check_report(before: &Floor, after: &Floor, report: &Report) {
    for tile in tiles(before) {
        assert!(report.grants[tile] <= 4);
        if before.tiles[tile].running == 0 {
            assert_eq!(report.grants[tile], 0);
            assert_eq!(before.tiles[tile], after.tiles[tile]);
            assert_eq!(before.places(tile), after.places(tile));
        }
    }
    assert!(report.grants[before.settings.tile_count()..]
        .iter()
        .all(|grant| *grant == 0));
    for (rank, delivery) in report.deliveries.iter().enumerate() {
        let count = report.at(rank).len();
        assert_eq!(usize::from(delivery.count), count);
        assert_eq!(delivery.numbers[count..], [0; 4][count..]);
        assert!(count == 0 || rank < before.settings.hopper_count());
    }
}

/// Tiles with a live path to a hopper.
fn live(floor: &Floor) -> Vec<bool> {
    let spots: Vec<_> = Grid::of(&floor.settings).spots().collect();
    let mut live = vec![false; spots.len()];
    let mut open: Vec<usize> = floor.settings.hopper_tiles().collect();
    while let Some(tile) = open.pop() {
        if !live[tile] && floor.tiles[tile].running == 1 {
            live[tile] = true;
            let grid = Grid::of(&floor.settings);
            open.extend(
                Side::ALL
                    .into_iter()
                    .filter_map(|side| grid.neighbour(spots[tile], side)),
            );
        }
    }
    live
}

fn rounds_across(settings: &Settings) -> u64 {
    u64::from((settings.width - settings.length) / settings.travel) + 1
}

fn bound(settings: &Settings, canisters: u64) -> u64 {
    (settings.tile_count() as u64 - 1) * (1 + canisters * rounds_across(settings))
}

fn numbers_on(floor: &Floor, on: impl Fn(usize) -> bool) -> BTreeSet<u32> {
    tiles(floor)
        .filter(|tile| on(*tile))
        .flat_map(|tile| floor.members(tile))
        .map(|canister| canister.number)
        .collect()
}

/// Runs a further list of rounds with refused calls between them. Everything
/// on a live tile goes, within the bound for the live canisters alone, and
/// nothing else does. Gives the rounds used, or nothing at the cap.
fn drain(rng: &mut Rng, first: &Floor, cap: u64) -> Option<u64> {
    let live = live(first);
    let waiting = numbers_on(first, |tile| live[tile]);
    let cut_off = numbers_on(first, |tile| !live[tile]);
    let most = bound(&first.settings, waiting.len() as u64);
    assert!(most <= bound(&first.settings, held(first).len() as u64));
    let told = oracle::bound(first);
    assert_eq!((told.refusal, u64::from(told.rounds)), (0, most));
    assert_eq!(told.connected as usize, waiting.len());
    assert_eq!(told.unconnected as usize, cut_off.len());
    let mut record = Record::of(first);
    let mut floor = *first;
    let mut rounds = 0;
    while record.gone.len() < waiting.len() {
        assert!(rounds < most, "{:?}", first.settings);
        if rounds == cap {
            return None;
        }
        while rng.chance(1, 8) {
            let (refusal, after) = record.make(random::refused_call(rng, &floor), &floor);
            assert_ne!(refusal, 0);
            floor = after;
        }
        // Neither keeping nor forgetting nor a recall of what runs ends the list.
        while rng.chance(1, 8) {
            let after = record.make(random::still_call(rng, &floor), &floor).1;
            assert_eq!(after.tiles, floor.tiles);
            floor = after;
        }
        floor = record.make(Call::Round, &floor).1;
        rounds += 1;
    }
    assert_eq!(record.gone, waiting);
    for _ in 0..3 {
        floor = record.make(Call::Round, &floor).1;
    }
    record.check(&floor);
    assert_eq!(record.gone, waiting);
    assert_eq!(numbers_on(&floor, |_| true), cut_off);
    Some(rounds)
}

/// A few bookings for one call.
fn bookings(rng: &mut Rng, floor: &Floor) -> Vec<Booking> {
    let mut list = Vec::new();
    for at in 0..40 {
        if let Call::Book { tile, mut canister } = random::call(rng, floor) {
            canister.number = canister.number.saturating_add(at);
            list.push(Booking {
                tile,
                canister,
                answer: 0,
            });
        }
    }
    list
}

#[test]
fn random_lists_keep_the_promises() {
    let mut accepted = [0; 8];
    let mut listed = 0;
    let mut refused = BTreeSet::new();
    for seed in 0..1_500 {
        let mut rng = Rng::new(seed);
        let first = random::floor(&mut rng);
        let mut record = Record::of(&first);
        let mut floor = first;
        for _ in 0..rng.below(300) {
            if rng.chance(1, 40) {
                let mut list = bookings(&mut rng, &floor);
                floor = record.make_list(&mut list, &floor);
                assert!(well_formed(&floor));
                listed += list.iter().filter(|entry| entry.answer == 0).count();
            }
            let call = random::call(&mut rng, &floor);
            let (refusal, after) = record.make(call, &floor);
            assert!(well_formed(&after));
            if refusal == 0 {
                let kind = match call {
                    Call::Book { .. } => 0,
                    Call::Stop { .. } => 1,
                    Call::Repair { .. } => 2,
                    Call::Round => 3,
                    Call::Keep { .. } => 4,
                    Call::Forget { .. } => 5,
                    Call::Recall { .. } => 6,
                    Call::BookAnywhere { .. } => 7,
                };
                accepted[kind] += 1;
            } else {
                refused.insert(refusal);
            }
            floor = after;
        }
        record.check(&floor);
    }
    assert!(accepted.iter().all(|count| *count > 500), "{accepted:?}");
    assert!(listed > 500, "{listed}");
    let all: BTreeSet<u8> = [4, 5, 6, 7, 8, 31, 32, 33, 34, 40, 45, 46].into();
    assert_eq!(refused, all);
}

#[test]
fn deliveries_come_within_the_bound() {
    let mut done = 0;
    for seed in 10_000..11_500 {
        let mut rng = Rng::new(seed);
        let mut floor = random::floor(&mut rng);
        for _ in 0..rng.below(60) {
            floor = perform(random::call(&mut rng, &floor), &floor).1;
        }
        if rounds_across(&floor.settings) <= 300 {
            done += usize::from(drain(&mut rng, &floor, 3_000).is_some());
        }
    }
    assert!(done > 750, "{done}");
}

#[test]
fn small_floors_come_within_the_bound() {
    let mut closest = 0.0f64;
    for seed in 0..6_000 {
        let mut rng = Rng::new(seed);
        let mut settings = random::settings(&mut rng);
        (settings.columns, settings.rows) = rng.pick(&[(2, 1), (1, 2), (3, 1), (2, 2), (1, 4)]);
        let hoppers = rng.pick(&[1, 1, 2, 3]);
        settings.hoppers = random::hoppers(&mut rng, &settings, hoppers);
        settings.sources = 0;
        if rounds_across(&settings) > 60 {
            continue;
        }
        let floor = random::floor_with(&mut rng, settings);
        let waiting = numbers_on(&floor, |tile| live(&floor)[tile]).len() as u64;
        if let Some(rounds) = drain(&mut rng, &floor, u64::MAX) {
            assert!(rounds <= bound(&settings, waiting));
            if waiting > 0 {
                closest = closest.max(rounds as f64 / bound(&settings, waiting) as f64);
            }
        }
    }
    assert!(closest > 0.3, "{closest}");
}

#[test]
fn the_smallest_measures_exhaustively() {
    let settings = Settings {
        width: 3,
        length: 2,
        gap: 0,
        travel: 1,
        ..plain(3, 1, 0)
    };
    for place in 0..16u16 {
        let mut floor = booked(&made(settings), 1, 1, place & 1, place >> 1 & 1);
        floor = booked(&floor, 2, 2, place >> 2 & 1, place >> 3 & 1);
        assert_eq!(bound(&settings, 2), 10);
        let mut rng = Rng::new(place.into());
        assert!(drain(&mut rng, &floor, u64::MAX).is_some());
    }
}

#[test]
fn an_empty_list() {
    let floor = random::floor(&mut Rng::new(77));
    Record::of(&floor).check(&floor);
}
