//! Time of the library through its binding against the second
//! implementation, on the same floors in one run; then of calls that must not
//! cost much more than another one. With --growth: how a round's cost grows
//! with tiles and canisters. With --methods: the binding's methods against the
//! raw calls that they make; fails if one takes more than 3 % above its call.
//! With --worst: looks for the slowest reading of a full floor.

mod barges;
mod floors;
mod methods;
mod plans;
mod worst;

use std::hint::black_box;
use std::process::ExitCode;
use std::time::Instant;

use ::ceromby::raw as ceromby;
use barges::fours;
use floors::{both_shapes, growing, to_book_on, to_list_on, Pair};
use plans::{stages, Planned};

/// Repetitions of each measure; the median counts. They are many and short,
/// so that other work on the machine spoils few of them.
const REPETITIONS: usize = 301;
/// Least time of one repetition, in nanoseconds.
const LEAST: f64 = 60_000.0;

/// Nanoseconds of one call in a batch.
fn batch(calls: u32, work: &mut dyn FnMut()) -> f64 {
    let start = Instant::now();
    for _ in 0..calls {
        work();
    }
    start.elapsed().as_nanos() as f64 / f64::from(calls)
}

/// Calls that take about the least time.
fn calls_for(work: &mut dyn FnMut()) -> u32 {
    let quickest = (0..40)
        .map(|_| batch(1, work))
        .fold(f64::INFINITY, f64::min);
    (LEAST / quickest.max(1.0)).ceil() as u32
}

fn median(mut times: Vec<f64>) -> f64 {
    times.sort_by(f64::total_cmp);
    times[times.len() / 2]
}

/// Measures the two by turns: the median of each, and of what the one takes as a
/// part of the other.
fn times(turns: usize, one: &mut dyn FnMut(), other: &mut dyn FnMut()) -> (f64, f64, f64) {
    let (many, others) = (calls_for(one), calls_for(other));
    let (mut ours, mut theirs) = (Vec::new(), Vec::new());
    for at in 0..turns {
        if at % 2 == 0 {
            ours.push(batch(many, one));
            theirs.push(batch(others, other));
        } else {
            theirs.push(batch(others, other));
            ours.push(batch(many, one));
        }
    }
    let ratios = ours.iter().zip(&theirs).map(|(one, other)| one / other);
    let ratio = median(ratios.collect());
    (median(ours), median(theirs), ratio)
}

/// Measures the two and prints a line.
fn measure(floor: &str, call: &str, answer: u8, one: &mut dyn FnMut(), other: &mut dyn FnMut()) {
    let (one, other, ratio) = times(REPETITIONS, one, other);
    println!("{floor:18} {call:25} {answer:3} {one:12.0} {other:12.0} {ratio:8.2}");
}

fn head(one: &str, other: &str) {
    println!(
        "{:18} {:25} {:>3} {one:>12} {other:>12} {:>8}",
        "floor", "call", "", "ratio"
    );
}

/// One row: the same call of both, with the library's answer.
macro_rules! row {
    ($name:expr, $call:expr, $ours:expr, $theirs:expr) => {
        row!($name, $call, $ours.refusal, $ours, $theirs)
    };
    ($name:expr, $call:expr, $answer:expr, $ours:expr, $theirs:expr) => {
        measure(
            $name,
            $call,
            $answer,
            &mut || {
                let _ = black_box($ours);
            },
            &mut || {
                let _ = black_box($theirs);
            },
        )
    };
}

/// The calls that are timed: all but fresh and repair.
fn timed_calls(pair: &Pair) {
    let (ours, theirs) = (&pair.ours, &pair.theirs);
    let (name, tile) = (pair.name.as_str(), pair.tile);
    assert_eq!(theirs.tiles[tile as usize].running, 1);
    let number = theirs.counters.last + 1;
    let (a, b) = pair.place;
    let place = ceromby::Canister { number, a, b };
    let same = oracle::Canister { number, a, b };
    let mut image = vec![0; ceromby::LONGEST_IMAGE];
    let written = oracle::write(theirs, &mut image);
    assert_eq!(written.refusal, 0);
    let length = written.length as usize;
    image.truncate(length);
    let (mut buffer, mut other) = (vec![0; length], vec![0; length]);
    let (ours, theirs, image) = (black_box(ours), black_box(theirs), black_box(&image));
    row!(name, "round", ceromby::round(ours), oracle::round(theirs));
    row!(
        name,
        "book",
        ceromby::book(ours, tile, place),
        oracle::book(theirs, tile, same)
    );
    row!(
        name,
        "book anywhere",
        ceromby::book_anywhere(ours, tile, number),
        oracle::book_anywhere(theirs, tile, number)
    );
    row!(
        name,
        "stop",
        ceromby::stop(ours, tile),
        oracle::stop(theirs, tile)
    );
    row!(
        name,
        "read",
        ceromby::read(ours, tile),
        oracle::read(theirs, tile)
    );
    row!(name, "bound", ceromby::bound(ours), oracle::bound(theirs));
    row!(
        name,
        "write",
        ceromby::write(ours, &mut buffer).err().unwrap_or(0),
        ceromby::write(ours, &mut buffer),
        oracle::write(theirs, &mut other)
    );
    row!(name, "load", ceromby::load(image), oracle::load(image));
    let (mut page, mut other) = ([0; ceromby::LONGEST_PAGE], [0; oracle::LONGEST_PAGE]);
    row!(
        name,
        "page",
        ceromby::page(ours, &mut page).err().unwrap_or(0),
        ceromby::page(ours, &mut page),
        oracle::page(theirs, &mut other)
    );
}

/// A booking without a place beside one at the place that it takes, or at (0, 0)
/// where there is none. At most 1.2 on an empty tile and 2 on a full one.
fn anywhere() {
    for (pair, on) in to_book_on() {
        let (ours, tile) = (black_box(&pair.ours), pair.tile);
        let number = pair.theirs.counters.last + 1;
        let ceromby::Placed { a, b, .. } = ceromby::book_anywhere(ours, tile, number);
        let place = ceromby::Canister { number, a, b };
        row!(
            &pair.name,
            &format!("book anywhere, {on}"),
            ceromby::book_anywhere(ours, tile, number),
            ceromby::book(ours, tile, place)
        );
    }
}

/// A list of 64 bookings in one call beside the same made singly. At most 0.35.
fn lists() {
    for (pair, mut list) in to_list_on() {
        let ours = black_box(&pair.ours);
        let single = list.clone();
        let answer = ceromby::book_list(ours, &mut list);
        assert!(answer.refusal == 0 && list.iter().all(|entry| entry.answer == 0));
        assert!(answer.floor == singly(ours, &single));
        row!(
            &pair.name,
            "book list of 64",
            ceromby::book_list(ours, black_box(&mut list)).refusal,
            ceromby::book_list(ours, black_box(&mut list)),
            singly(ours, black_box(&single))
        );
    }
}

fn singly(floor: &ceromby::Floor, list: &[ceromby::Booking]) -> ceromby::Floor {
    let mut floor = *floor;
    for entry in list {
        floor = ceromby::book(&floor, entry.tile, entry.canister).floor;
    }
    floor
}

/// Feeding a throughput record: an open round and a closing one.
fn feeds() {
    for (name, rounds) in [("throughput, open", 100), ("throughput, closing", 255)] {
        let ours = ceromby::Throughput {
            last: 1.0,
            least: 0.5,
            greatest: 2.0,
            rounds,
            deliveries: 200,
            closed: 1,
        };
        let theirs = oracle::Throughput {
            last: ours.last,
            least: ours.least,
            greatest: ours.greatest,
            rounds: ours.rounds,
            deliveries: ours.deliveries,
            closed: ours.closed,
        };
        let (ours, theirs) = (&ours, &theirs);
        row!(
            name,
            "feed",
            ceromby::feed(ours, 2).err().unwrap_or(0),
            ceromby::feed(black_box(ours), black_box(2)),
            oracle::feed(black_box(theirs), black_box(2))
        );
    }
}

/// The calls about plans of 64 entries.
fn planned() {
    for Planned { name, ours, theirs } in stages() {
        let (ours, theirs) = (black_box(&ours), black_box(&theirs));
        row!(
            name,
            "offer",
            ceromby::plan::offer(ours).err().unwrap_or(0),
            ceromby::plan::offer(ours),
            oracle::offer(theirs)
        );
        let (told, same) = (black_box(&plans::OURS), black_box(&plans::THEIRS));
        row!(
            name,
            "report of 16",
            ceromby::plan::report(ours, told),
            oracle::report(theirs, same)
        );
        for (pair, _) in to_release_on() {
            let (floor, same) = (black_box(&pair.ours), black_box(&pair.theirs));
            row!(
                name,
                &format!("release, {}", pair.name),
                ceromby::plan::release(ours, floor, 64),
                oracle::release(theirs, same, 64)
            );
        }
    }
}

/// A release beside the booking without a place that it makes.
fn releases() {
    for Planned { name, ours, .. } in stages() {
        let ours = black_box(&ours);
        for (pair, tile) in to_release_on() {
            let floor = black_box(&pair.ours);
            let number = pair.theirs.counters.last + 1;
            row!(
                name,
                &format!("release, {}", pair.name),
                ceromby::plan::release(ours, floor, 64),
                ceromby::book_anywhere(floor, tile, number)
            );
        }
    }
}

/// A small floor and a large one, with tile 4 empty.
fn to_release_on() -> Vec<(Pair, u32)> {
    let floors = to_book_on().into_iter();
    let empty = floors.filter(|(_, on)| *on == "empty tile");
    let ends = |pair: &Pair| ["4 x 4 fresh", "8 x 8 full, near"].contains(&pair.name.as_str());
    empty
        .filter(|(pair, _)| ends(pair))
        .map(|(pair, _)| (plans::aboard(pair), plans::TILE))
        .collect()
}

/// The calls on the last of a barge's four floors, each beside another call.
macro_rules! on_barges {
    ($side:ident, $($beside:ident).+; $book:expr, $anywhere:expr, $stop:expr, $round:expr, $repair:expr) => {
        for four in fours() {
            let (name, tile) = (four.lone.name.as_str(), four.lone.tile);
            let number = four.lone.theirs.counters.last + 1;
            let (a, b) = four.lone.place;
            let place = ceromby::Canister { number, a, b };
            let same = $side::Canister { number, a, b };
            let (ours, other) = (black_box(&four.ours), black_box(&four.$($beside).+));
            row!(
                name,
                "barge book",
                ceromby::barge::book(ours, 3, tile, place),
                ($book)(other, tile, same)
            );
            row!(
                name,
                "barge book anywhere",
                ceromby::barge::book_anywhere(ours, 3, tile, number),
                ($anywhere)(other, tile, number)
            );
            row!(
                name,
                "barge stop",
                ceromby::barge::stop(ours, 3, tile),
                ($stop)(other, tile)
            );
            row!(
                name,
                "barge round",
                ceromby::barge::round(ours, 3),
                ($round)(other)
            );
            let four = four.stopped();
            let (ours, other) = (black_box(&four.ours), black_box(&four.$($beside).+));
            row!(
                name,
                "barge repair",
                ceromby::barge::repair(ours, 3, tile),
                ($repair)(other, tile)
            );
        }
    };
}

/// Beside the same calls of the oracle.
fn barges() {
    on_barges!(
        oracle,
        theirs;
        |barge, tile, place| oracle::barge_book(barge, 3, tile, place),
        |barge, tile, number| oracle::barge_book_anywhere(barge, 3, tile, number),
        |barge, tile| oracle::barge_stop(barge, 3, tile),
        |barge| oracle::barge_round(barge, 3),
        |barge, tile| oracle::barge_repair(barge, 3, tile)
    );
}

/// Beside the calls on a lone floor.
fn beside_lone() {
    on_barges!(
        ceromby,
        lone.ours;
        ceromby::book,
        ceromby::book_anywhere,
        ceromby::stop,
        ceromby::round,
        ceromby::repair
    );
}

/// How a round's cost grows: floor and canisters by row.
fn growth() {
    for pair in growing() {
        let (ours, theirs) = (black_box(&pair.ours), black_box(&pair.theirs));
        row!(
            &pair.name,
            "round",
            ceromby::round(ours),
            oracle::round(theirs)
        );
    }
}

fn main() -> ExitCode {
    let asked = |flag| std::env::args().any(|word| word == flag);
    if asked("--methods") {
        let within = methods::methods();
        return if within {
            ExitCode::SUCCESS
        } else {
            ExitCode::FAILURE
        };
    }
    if asked("--worst") {
        worst::search();
        return ExitCode::SUCCESS;
    }
    println!("medians of {REPETITIONS}, the two by turns; 34, 40: a full tile refuses");
    head("library ns", "oracle ns");
    if asked("--growth") {
        growth();
        return ExitCode::SUCCESS;
    }
    for pair in both_shapes() {
        timed_calls(&pair);
    }
    feeds();
    planned();
    barges();
    head("library ns", "book ns");
    anywhere();
    head("library ns", "singly ns");
    lists();
    head("library ns", "anywhere ns");
    releases();
    head("library ns", "lone ns");
    beside_lone();
    ExitCode::SUCCESS
}
