//! Demand 3, judged from the calls and their answers alone.

use std::collections::{BTreeMap, BTreeSet};

use oracle::{Floor, Grid, Report, Settings, Side, MAX_HOPPERS};

use crate::arrows::Settled;
use crate::call::{both, Call, Outcome, Trouble};
use crate::layouts;
use crate::tally::Tally;
use crate::waits::Waits;

/// What is known of a list so far.
pub struct Record {
    numbers: BTreeSet<u32>,
    gone: BTreeSet<u32>,
    running: Vec<bool>,
    /// The tiles that run in each layout.
    layouts: BTreeMap<String, u64>,
    booked: u32,
    delivered: [u32; MAX_HOPPERS],
    waits: Waits,
    settled: Settled,
    /// The tile of the latest accepted booking, and whether that had no place.
    latest: Option<(u32, bool)>,
}

/// The numbers on the floor.
pub fn held(floor: &Floor) -> impl Iterator<Item = u32> + '_ {
    let tiles = 0..floor.settings.tile_count();
    tiles
        .flat_map(|tile| floor.members(tile))
        .map(|canister| canister.number)
}

fn broken(text: impl Into<String>) -> Result<(), Trouble> {
    Err(Trouble::promise("demand 3", text.into()))
}

/// The accepted bookings of an accepted call: tile, number, and whether without
/// a place.
fn bookings(call: &Call, outcome: &Outcome) -> Vec<(u32, u32, bool)> {
    match (call, outcome) {
        (Call::Book { tile, canister }, _) => vec![(*tile, canister.number, false)],
        (Call::BookAnywhere { tile, number }, _) => vec![(*tile, *number, true)],
        (Call::Release { plan, label }, Outcome::Released(answer)) => {
            let named = |entry: &&oracle::Entry| u32::from(entry.label) == *label;
            let entry = plan.entries.iter().find(named);
            entry
                .map(|entry| (entry.tile, answer.number, true))
                .into_iter()
                .collect()
        }
        (_, Outcome::Listed(_, list)) => {
            let accepted = list.iter().filter(|entry| entry.answer == 0);
            accepted
                .map(|entry| (entry.tile, entry.canister.number, false))
                .collect()
        }
        _ => Vec::new(),
    }
}

impl Record {
    pub fn of(floor: &Floor) -> Record {
        let used = &floor.tiles[..floor.settings.tile_count()];
        Record {
            numbers: held(floor).collect(),
            gone: BTreeSet::new(),
            running: used.iter().map(|tile| tile.running == 1).collect(),
            layouts: layouts::held(floor),
            booked: floor.counters.booked,
            delivered: floor.counters.delivered,
            waits: Waits::new(),
            settled: Settled::default(),
            latest: None,
        }
    }

    pub fn note(
        &mut self,
        before: &Floor,
        call: &Call,
        outcome: &Outcome,
        tally: &mut Tally,
    ) -> Result<(), Trouble> {
        if outcome.refusal() != 0 {
            return Ok(());
        }
        self.count(call, outcome)?;
        for (tile, number, anywhere) in bookings(call, outcome) {
            self.add(number)?;
            self.note_sort(tile, anywhere, &mut tally.places.mixed);
        }
        self.waits.note(before, call, outcome, &mut tally.waits)?;
        self.settled.note(before, call, outcome, &mut tally.settled)
    }

    fn count(&mut self, call: &Call, outcome: &Outcome) -> Result<(), Trouble> {
        match (call, outcome) {
            (Call::Stop { tile } | Call::Repair { tile }, _) => {
                let Some(runs) = self.running.get_mut(*tile as usize) else {
                    return broken(format!("{} of tile {tile} accepted", call.name()));
                };
                *runs = matches!(call, Call::Repair { .. });
            }
            (Call::Keep { .. } | Call::Forget { .. } | Call::Recall { .. }, _) => {
                return self.change_layouts(call);
            }
            (Call::Fresh { .. } | Call::Load { .. }, Outcome::Answer(answer)) => {
                *self = Record::of(&answer.floor);
            }
            (_, Outcome::Round(answer)) => return self.deliver(&answer.report),
            _ => {}
        }
        Ok(())
    }

    /// Counts bookings of the two sorts that follow each other on a tile.
    fn note_sort(&mut self, tile: u32, anywhere: bool, mixed: &mut [u64; 2]) {
        if self.latest == Some((tile, !anywhere)) {
            mixed[usize::from(anywhere)] += 1;
        }
        self.latest = Some((tile, anywhere));
    }

    /// Counts an accepted booking.
    fn add(&mut self, number: u32) -> Result<(), Trouble> {
        self.booked += 1;
        match self.numbers.insert(number) {
            true => Ok(()),
            false => broken(format!("number {number} booked twice")),
        }
    }

    /// What a layout has is known from the stops and repairs before it was kept.
    fn change_layouts(&mut self, call: &Call) -> Result<(), Trouble> {
        let Some(name) = call.layout().and_then(|(_, name)| name.letters()) else {
            return broken(format!("{} of no name accepted", call.name()));
        };
        let runs = self.running.iter().enumerate();
        let set = runs.fold(0, |set, (tile, runs)| set | u64::from(*runs) << tile);
        let held = match call {
            Call::Keep { .. } => self.layouts.insert(name, set).or(Some(0)),
            Call::Forget { .. } => self.layouts.remove(&name),
            _ => self.layouts.get(&name).copied(),
        };
        let Some(set) = held else {
            return broken(format!("{} of a name that isn't held", call.name()));
        };
        if matches!(call, Call::Recall { .. }) {
            for (tile, runs) in self.running.iter_mut().enumerate() {
                *runs = set >> tile & 1 == 1;
            }
        }
        Ok(())
    }

    /// Counts for each hopper; a number is delivered once over all of them.
    fn deliver(&mut self, report: &Report) -> Result<(), Trouble> {
        for (rank, count) in self.delivered.iter_mut().enumerate() {
            let numbers = report.at(rank);
            if !numbers.is_sorted_by(|one, other| one < other) {
                return broken(format!("delivered numbers {numbers:?}"));
            }
            *count += numbers.len() as u32;
        }
        for number in report.delivered() {
            if !self.gone.insert(number) {
                return broken(format!("number {number} delivered twice"));
            }
        }
        Ok(())
    }

    pub fn check(&self, floor: &Floor) -> Result<(), Trouble> {
        check_places(floor)?;
        let mut all: Vec<u32> = held(floor).chain(self.gone.iter().copied()).collect();
        all.sort_unstable();
        if !all.iter().eq(&self.numbers) {
            return broken("some number isn't on the floor or delivered exactly once");
        }
        let counters = &floor.counters;
        if (counters.booked, counters.delivered) != (self.booked, self.delivered) {
            return broken(format!(
                "counters {counters:?}, but {} booked and {:?} delivered",
                self.booked, self.delivered
            ));
        }
        let runs = |tile: usize| floor.tiles[tile].running == 1;
        if !(0..self.running.len()).all(|tile| runs(tile) == self.running[tile]) {
            return broken("a tile runs or stands against the last stop or repair of it");
        }
        if layouts::held(floor) != self.layouts {
            return broken("other layouts than were kept");
        }
        Ok(())
    }
}

/// Spacing and borders.
fn check_places(floor: &Floor) -> Result<(), Trouble> {
    let settings = &floor.settings;
    let span = settings.width - settings.length;
    let spacing = u32::from(settings.length) + u32::from(settings.gap);
    for tile in 0..settings.tile_count() {
        let members = floor.members(tile);
        for (at, one) in members.iter().enumerate() {
            if one.a > span || one.b > span {
                return broken(format!("canister {} over the border", one.number));
            }
            for other in &members[..at] {
                let a = u32::from(one.a.abs_diff(other.a));
                let b = u32::from(one.b.abs_diff(other.b));
                if a < spacing && b < spacing {
                    return broken(format!("{} too close to {}", one.number, other.number));
                }
            }
        }
    }
    Ok(())
}

/// Tiles with a live path to a hopper.
pub fn live(floor: &Floor) -> Vec<bool> {
    let grid = Grid::of(&floor.settings);
    let spots: Vec<_> = grid.spots().collect();
    let mut live = vec![false; spots.len()];
    let mut open: Vec<usize> = floor.settings.hopper_tiles().collect();
    while let Some(tile) = open.pop() {
        if !live[tile] && floor.tiles[tile].running == 1 {
            live[tile] = true;
            let beside = |side| grid.neighbour(spots[tile], side);
            open.extend(Side::ALL.into_iter().filter_map(beside));
        }
    }
    live
}

/// The numbers on the tiles that have a live path, or on those that haven't.
pub fn numbers_where(floor: &Floor, live: &[bool], wanted: bool) -> BTreeSet<u32> {
    (0..live.len())
        .filter(|tile| live[*tile] == wanted)
        .flat_map(|tile| floor.members(tile))
        .map(|canister| canister.number)
        .collect()
}

/// (C - 1) (1 + K M).
pub fn bound(settings: &Settings, waiting: usize) -> u64 {
    let across = u64::from((settings.width - settings.length) / settings.travel) + 1;
    (settings.tile_count() as u64 - 1) * (1 + waiting as u64 * across)
}

/// The bound of a floor, with K counted on tiles with a live path.
pub fn bound_of(floor: &Floor) -> u64 {
    bound(
        &floor.settings,
        numbers_where(floor, &live(floor), true).len(),
    )
}

/// Rounds from here, with `between` before each of them. Within the bound
/// everything on a tile with a live path is delivered, and nothing else. If a
/// single call is at fault, `calls` has all up to it, else none.
pub fn drain(
    first: &Floor,
    tally: &mut Tally,
    calls: &mut Vec<Call>,
    mut between: impl FnMut(&Floor) -> Option<Call>,
) -> Result<(), Trouble> {
    let live = live(first);
    let waiting = numbers_where(first, &live, true);
    let cut_off = numbers_where(first, &live, false);
    let most = bound(&first.settings, waiting.len());
    let mut record = Record::of(first);
    let mut floor = *first;
    let mut rounds = 0;
    while record.gone.len() < waiting.len() {
        if rounds == most {
            calls.clear();
            return Err(Trouble::promise(
                "the bound",
                format!(
                    "after {most} rounds {} of {} delivered",
                    record.gone.len(),
                    waiting.len()
                ),
            ));
        }
        for call in between(&floor).into_iter().chain([Call::Round]) {
            calls.push(call.clone());
            let outcome = made(&floor, &call, &mut record, tally)?;
            tally.layouts.note_within(&call, outcome.refusal());
            floor = outcome.floor_after(&call, &floor);
        }
        rounds += 1;
    }
    calls.clear();
    record.check(&floor)?;
    if record.gone != waiting || !held(&floor).all(|number| cut_off.contains(&number)) {
        return broken("a canister without a live path was delivered");
    }
    if !waiting.is_empty() {
        tally.closest = tally.closest.max(rounds as f64 / most as f64);
    }
    Ok(())
}

fn made(
    floor: &Floor,
    call: &Call,
    record: &mut Record,
    tally: &mut Tally,
) -> Result<Outcome, Trouble> {
    let outcome = both(floor, call)?;
    tally.calls += 1;
    tally.note(floor, call, &outcome);
    record.note(floor, call, &outcome, tally)?;
    Ok(outcome)
}
