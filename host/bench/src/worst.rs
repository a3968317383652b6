//! The slowest input of a check: full 8 x 8 floors whose numbers are chosen
//! against the comparison of numbers, the one part of a check whose time hangs
//! on more than how many canisters there are.

use std::time::Instant;

use ::ceromby::raw as ceromby;
use oracle::random::Rng;

use crate::floors::growing;

/// Readings of a candidate, the least time of which counts; and of one that
/// seems the slowest, by turns with the slowest so far, so that other work on the
/// machine is not taken for it.
const READINGS: usize = 10;
const AGAIN: usize = 100;
/// Floors read by turns. Of one floor, read again and again, the processor
/// learns which way each branch goes; of a floor that is read once it can't.
const TURNS: usize = 8;
/// Candidates made by a rule, and changes tried on the slowest of them.
const RULED: usize = 6_000;
const CHANGED: usize = 6_000;

/// How rising numbers are put on the tiles.
#[derive(Clone, Copy)]
enum Order {
    TileByTile,
    Dealt,
    Shuffled,
}

fn arranged(rng: &mut Rng, numbers: &[u32], tiles: usize, order: Order) -> Vec<u32> {
    let mut out = numbers.to_vec();
    match order {
        Order::TileByTile => {}
        Order::Dealt => {
            let each = numbers.len() / tiles;
            for (at, number) in numbers.iter().enumerate() {
                out[at % tiles * each + at / tiles] = *number;
            }
        }
        Order::Shuffled => {
            for at in (1..out.len()).rev() {
                out.swap(at, rng.below(at as u64 + 1) as usize);
            }
        }
    }
    out
}

/// The floor with these numbers, tile after tile, rising on each.
fn numbered(full: &ceromby::Floor, numbers: &[u32]) -> ceromby::Floor {
    let mut floor = *full;
    let mut rest = numbers;
    for tile in 0..64 {
        let (here, behind) = rest.split_at(usize::from(floor.tiles[tile].count));
        let mut here = here.to_vec();
        here.sort_unstable();
        for (place, number) in here.into_iter().enumerate() {
            floor.canisters[16 * tile + place].number = number;
        }
        rest = behind;
    }
    floor.counters.last = numbers.iter().copied().max().unwrap_or(0);
    floor
}

/// A kind of floors: the numbers, how they are put on the tiles, and floors
/// made so, which are read by turns.
struct Kind {
    numbers: Vec<u32>,
    order: Order,
    floors: Vec<ceromby::Floor>,
}

impl Kind {
    fn new(rng: &mut Rng, full: &ceromby::Floor, numbers: Vec<u32>, order: Order) -> Kind {
        let tiles = full.tiles.iter().filter(|tile| tile.count > 0).count();
        let floors = (0..TURNS)
            .map(|_| numbered(full, &arranged(rng, &numbers, tiles, order)))
            .collect();
        Kind {
            numbers,
            order,
            floors,
        }
    }
}

/// As many different numbers as given, rising: multiples of a step, in groups
/// that are a power of two apart.
fn ruled(rng: &mut Rng, count: usize) -> Vec<u32> {
    let steps = [
        1,
        2,
        64,
        1021,
        1024,
        2039,
        2048,
        4096,
        32_768,
        65_536,
        2039 * 1024,
        2039 * 2029,
    ];
    let step = if rng.chance(1, 2) {
        rng.pick(&steps)
    } else {
        rng.range(1, 4_000_000)
    };
    let groups = 1 << rng.below(11);
    let shift = rng.range(8, 31);
    let start = rng.below(5000);
    let mut numbers: Vec<u32> = (0..count as u64)
        .map(|k| start + (k / groups + 1) * step + ((k % groups) << shift))
        .map(|n| n as u32)
        .filter(|n| *n != 0)
        .collect();
    numbers.sort_unstable();
    numbers.dedup();
    while numbers.len() < count {
        let more = rng.draw() as u32;
        if let (true, Err(at)) = (more != 0, numbers.binary_search(&more)) {
            numbers.insert(at, more);
        }
    }
    numbers
}

/// Nanoseconds of a reading, over all floors by turns; the least of so many.
fn reading(floors: &[ceromby::Floor], times: usize) -> f64 {
    (0..times)
        .map(|_| {
            let start = Instant::now();
            for floor in floors {
                let answer = ceromby::read(std::hint::black_box(floor), 0);
                assert_eq!(answer.refusal, 0);
            }
            start.elapsed().as_nanos() as f64 / floors.len() as f64
        })
        .fold(f64::INFINITY, f64::min)
}

/// Nanoseconds of a reading of either, by turns.
fn by_turns(one: &[ceromby::Floor], other: &[ceromby::Floor]) -> (f64, f64) {
    (0..AGAIN).fold((f64::INFINITY, f64::INFINITY), |least, _| {
        (least.0.min(reading(one, 1)), least.1.min(reading(other, 1)))
    })
}

/// Takes a kind for the slowest if it is.
fn compare(slowest: &mut Kind, taken: &mut f64, kind: Kind) {
    if reading(&kind.floors, READINGS) <= *taken {
        return;
    }
    let (before, now) = by_turns(&slowest.floors, &kind.floors);
    *taken = before.max(now);
    if now > before {
        *slowest = kind;
    }
}

/// The numbers with some of them changed, if all still differ.
fn changed(rng: &mut Rng, numbers: &[u32]) -> Option<Vec<u32>> {
    let mut out = numbers.to_vec();
    for _ in 0..=rng.below(8) {
        let at = rng.below(out.len() as u64) as usize;
        let near = rng.pick(numbers);
        out[at] = match rng.below(3) {
            0 => near.wrapping_add(2039 * rng.below(1000) as u32),
            1 => near ^ (1 << rng.below(32)),
            _ => rng.draw() as u32,
        }
        .max(1);
    }
    out.sort_unstable();
    out.dedup();
    Some(out).filter(|out| out.len() == numbers.len())
}

/// Looks for the slowest reading of a full floor: many floors by rules, then
/// the slowest of them with numbers changed at random, as long as that helps.
pub fn search() {
    let full = growing().pop().expect("a full floor").ours;
    let count = full.counters.booked as usize;
    let mut rng = Rng::new(37);
    let numbers = ruled(&mut rng, count);
    let mut slowest = Kind::new(&mut rng, &full, numbers, Order::Dealt);
    let mut taken = reading(&slowest.floors, AGAIN);
    for _ in 0..RULED {
        let order = rng.pick(&[Order::TileByTile, Order::Dealt, Order::Shuffled]);
        let numbers = ruled(&mut rng, count);
        let kind = Kind::new(&mut rng, &full, numbers, order);
        compare(&mut slowest, &mut taken, kind);
    }
    println!("{RULED} kinds of floors by rules: {taken:.0} ns a reading at most");
    for _ in 0..CHANGED {
        let Some(numbers) = changed(&mut rng, &slowest.numbers) else {
            continue;
        };
        let kind = Kind::new(&mut rng, &full, numbers, slowest.order);
        compare(&mut slowest, &mut taken, kind);
    }
    println!("{CHANGED} changes of the slowest: {taken:.0} ns at most");
    let (worst, usual) = by_turns(&slowest.floors, &[full; TURNS]);
    println!(
        "the slowest again {worst:.0} ns, numbers in the order of booking {usual:.0}: {:.2} times",
        worst / usual
    );
}
