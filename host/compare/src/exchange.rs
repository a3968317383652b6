//! Neighbouring calls made in either order.

use oracle::random::{self, Rng};
use oracle::{Canister, Floor, Report};

use crate::call::{both, Call, Trouble, BOOK, BOOK_ANYWHERE, NAMES, REPAIR, STOP};
use crate::makers;

/// The pairs to make, the last one of two bookings. A booking is of either sort.
pub const MADE: [[usize; 2]; 6] = [
    [STOP, STOP],
    [STOP, REPAIR],
    [REPAIR, REPAIR],
    [BOOK, STOP],
    [BOOK, REPAIR],
    [BOOK, BOOK],
];

/// The pairs of kinds: those whose order must not show on different tiles, then
/// two bookings.
const PAIRS: [[usize; 2]; 10] = [
    [STOP, STOP],
    [STOP, REPAIR],
    [REPAIR, REPAIR],
    [BOOK, STOP],
    [BOOK, REPAIR],
    [BOOK_ANYWHERE, STOP],
    [BOOK_ANYWHERE, REPAIR],
    [BOOK, BOOK],
    [BOOK, BOOK_ANYWHERE],
    [BOOK_ANYWHERE, BOOK_ANYWHERE],
];

/// How many of `PAIRS` aren't of two bookings.
const FREE: usize = 7;

/// Which pair two calls are; bookings may share a tile.
fn pair_of(one: &Call, other: &Call) -> Option<usize> {
    let fits = |kinds: &[usize; 2]| {
        *kinds == [one.kind(), other.kind()] || *kinds == [other.kind(), one.kind()]
    };
    let pair = PAIRS.iter().position(fits)?;
    (pair >= FREE || one.tile() != other.tile()).then_some(pair)
}

const CLASSES: [&str; 4] = ["both accepted", "one refused", "both refused", "malformed"];

/// The place among `CLASSES` of two answers.
fn class(answers: [u8; 2]) -> usize {
    match answers {
        [30, _] => 3,
        _ => answers.iter().filter(|answer| **answer != 0).count(),
    }
}

/// What a check met.
pub enum Met {
    Pair { pair: usize, class: usize },
    StopAgain { accepted: bool },
}

impl Met {
    /// The calls that the check made, having been given so many.
    pub fn calls(&self, given: usize) -> u64 {
        match self {
            Met::Pair { .. } => 2 * given as u64,
            Met::StopAgain { .. } => 3,
        }
    }
}

/// How often each was met.
#[derive(Default)]
pub struct Counts {
    pairs: [[u64; 4]; PAIRS.len()],
    within: [u64; FREE],
    stop_again: u64,
}

impl Counts {
    /// Notes a check of so many calls.
    pub fn note(&mut self, met: Met, calls: usize) {
        match met {
            Met::Pair { pair, .. } if calls > 2 && pair < FREE => self.within[pair] += 1,
            Met::Pair { pair, class } => self.pairs[pair][class] += 1,
            Met::StopAgain { accepted } => self.stop_again += u64::from(accepted),
        }
    }

    /// Lines of counts, each with its name.
    pub fn lines(&self) -> Vec<(String, Vec<(&'static str, u64)>)> {
        let mut lines = Vec::new();
        for (pair, ([one, other], counts)) in PAIRS.iter().zip(&self.pairs).enumerate() {
            let mut cells: Vec<_> = CLASSES.into_iter().zip(*counts).collect();
            if let Some(within) = self.within.get(pair) {
                cells.push(("within a list", *within));
            }
            lines.push((format!("{}, {}:", NAMES[*one], NAMES[*other]), cells));
        }
        lines.push((
            "stop, repair, stop:".into(),
            vec![("accepted", self.stop_again)],
        ));
        lines
    }
}

/// What a call told: its answer or those of its entries, the place, the report.
#[derive(PartialEq)]
struct Told {
    refusal: u8,
    answers: Vec<u8>,
    place: (u16, u16),
    report: Report,
}

/// What came of some calls, and the floor.
struct Course {
    answers: Vec<Told>,
    floor: Floor,
}

impl Course {
    fn of<'a>(first: &Floor, calls: impl IntoIterator<Item = &'a Call>) -> Result<Course, Trouble> {
        let mut course = Course {
            answers: Vec::new(),
            floor: *first,
        };
        for call in calls {
            let outcome = both(&course.floor, call)?;
            course.answers.push(Told {
                refusal: outcome.refusal(),
                answers: outcome.answers().collect(),
                place: outcome.place(),
                report: outcome.report(),
            });
            course.floor = outcome.floor_after(call, &course.floor);
        }
        Ok(course)
    }

    /// The first two answers.
    fn two(&self) -> [u8; 2] {
        [self.answers[0].refusal, self.answers[1].refusal]
    }
}

fn broken(text: String) -> Result<Option<Met>, Trouble> {
    Err(Trouble::promise("either order", text))
}

/// Holds the first calls, from this floor, to what is said of their order.
pub fn check(first: &Floor, calls: &[Call]) -> Result<Option<Met>, Trouble> {
    if let [Call::Stop { tile }, Call::Repair { tile: again }, Call::Stop { tile: last }, ..] =
        calls
    {
        if tile == again && again == last {
            return stop_again(first, &calls[..3]);
        }
    }
    let [one, other, rest @ ..] = calls else {
        return Ok(None);
    };
    match pair_of(one, other) {
        Some(pair) if pair >= FREE => bookings(first, pair, one, other),
        Some(pair) => exchanged(first, pair, calls, [other, one].into_iter().chain(rest)),
        None => Ok(None),
    }
}

/// Every answer and the floor at the end are the same with the first two calls exchanged.
fn exchanged<'a>(
    first: &Floor,
    pair: usize,
    calls: &[Call],
    turned: impl Iterator<Item = &'a Call>,
) -> Result<Option<Met>, Trouble> {
    let straight = Course::of(first, calls)?;
    let mut turned = Course::of(first, turned)?;
    turned.answers.swap(0, 1);
    let differ = (0..calls.len()).find(|at| straight.answers[*at] != turned.answers[*at]);
    if let Some(at) = differ {
        let (one, other) = (&straight.answers[at], &turned.answers[at]);
        let name = calls[at].name();
        let (one, other) = match one.refusal == other.refusal && one.answers != other.answers {
            true => (format!("{:?}", one.answers), format!("{:?}", other.answers)),
            false => (one.refusal.to_string(), other.refusal.to_string()),
        };
        return broken(format!("{name} answers {one}, or {other} in other order"));
    }
    if straight.floor != turned.floor {
        return broken("the order shows on the floor".into());
    }
    let class = class(straight.two());
    Ok(Some(Met::Pair { pair, class }))
}

/// Two bookings accepted in one order: in the other the first is accepted, the second is 33.
fn bookings(first: &Floor, pair: usize, one: &Call, other: &Call) -> Result<Option<Met>, Trouble> {
    let straight = Course::of(first, [one, other])?.two();
    let turned = Course::of(first, [other, one])?.two();
    let accepted = [straight, turned].contains(&[0, 0]);
    if accepted && ![straight, turned].contains(&[0, 33]) {
        return broken(format!(
            "bookings answer {straight:?}, or {turned:?} in other order"
        ));
    }
    let class = if accepted { 0 } else { class(straight) };
    Ok(Some(Met::Pair { pair, class }))
}

/// Stop, repair, stop gives the floor of a single stop; where that is accepted, so are the other two.
fn stop_again(first: &Floor, calls: &[Call]) -> Result<Option<Met>, Trouble> {
    let once = Course::of(first, &calls[..1])?;
    let accepted = once.answers[0].refusal == 0;
    let again = Course::of(&once.floor, &calls[1..])?;
    if again.floor != once.floor || (accepted && again.two() != [0, 0]) {
        return broken("stop, repair, stop isn't a single stop".into());
    }
    Ok(Some(Met::StopAgain { accepted }))
}

/// Two calls of these kinds that both could be accepted, mostly.
pub fn pair(rng: &mut Rng, floor: &Floor, [one, other]: [usize; 2]) -> Vec<Call> {
    loop {
        let mut calls = vec![call(rng, floor, other), call(rng, floor, one)];
        if let Call::BookAnywhere { number, .. }
        | Call::Book {
            canister: Canister { number, .. },
            ..
        } = &mut calls[1]
        {
            *number = number.saturating_add(rng.below(3) as u32);
        }
        if rng.chance(1, 2) {
            calls.swap(0, 1);
        }
        if pair_of(&calls[0], &calls[1]).is_some() {
            return calls;
        }
    }
}

fn call(rng: &mut Rng, floor: &Floor, kind: usize) -> Call {
    match kind {
        BOOK => booking(rng, floor),
        STOP => Call::Stop {
            tile: tile(rng, floor, 1),
        },
        _ => Call::Repair {
            tile: tile(rng, floor, 0),
        },
    }
}

/// A booking of either sort, on a fill tile if a few tries meet one.
fn booking(rng: &mut Rng, floor: &Floor) -> Call {
    let fill = |call: &Call| {
        let tile = call.tile().map_or(64, |tile| tile as usize);
        floor.settings.is_source(tile) && floor.tiles[tile].running == 1
    };
    (0..rng.below(8))
        .map(|_| makers::any_booking(rng, floor))
        .find(fill)
        .unwrap_or_else(|| makers::any_booking(rng, floor))
}

/// Mostly a tile that runs, or stands, as asked.
fn tile(rng: &mut Rng, floor: &Floor, running: u8) -> u32 {
    let used = floor.tiles.iter().take(floor.settings.tile_count());
    let fit: Vec<u32> = (0..)
        .zip(used)
        .filter(|(_, tile)| tile.running == running)
        .map(|(at, _)| at)
        .collect();
    match fit.is_empty() || rng.chance(1, 3) {
        true => random::any_tile(rng, floor),
        false => rng.pick(&fit),
    }
}

/// Stop, repair, stop of one tile.
pub fn stop_twice(rng: &mut Rng, floor: &Floor) -> Vec<Call> {
    let tile = tile(rng, floor, 1);
    vec![
        Call::Stop { tile },
        Call::Repair { tile },
        Call::Stop { tile },
    ]
}
