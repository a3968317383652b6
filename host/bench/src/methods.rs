//! The binding's methods, each beside the raw call that it makes. Both leave the
//! floor after the call in the same place: the raw call's is put there from its
//! answer. Calls that would change what they are measured on go by turns with
//! one that takes it back, or both begin with a copy of the same floor.
//!
//! How a copy lies to its source in the pages of memory can make it many times
//! slower, and that is an accident of where the stack is. So each is measured at
//! several depths of the stack, the two by turns, and its least time counts.

use std::hint::black_box;

use ::ceromby::raw;
use ::ceromby::{Barge, Booking, Canister, Entry, Floor, Plan, Settings, Throughput};

use crate::barges::fours;
use crate::floors::{both_shapes, to_list_on, Pair};
use crate::{times, REPETITIONS};

/// What a method may take, as a part of its raw call.
const MOST: f64 = 1.03;
/// How often a row that takes more is measured; the least counts.
const TRIES: usize = 3;
/// At so many depths of the stack.
const DEPTHS: usize = 8;

/// Works so many frames of about 600 bytes deeper.
#[inline(never)]
fn deeper(frames: usize, work: &mut dyn FnMut()) {
    let room = [frames; 72];
    match black_box(&room)[0] {
        0 => work(),
        more => deeper(more - 1, work),
    }
    black_box(&room);
}

/// The least times of the two over all depths.
fn least(one: &mut dyn FnMut(), other: &mut dyn FnMut()) -> (f64, f64) {
    let (mut ours, mut theirs) = (f64::INFINITY, f64::INFINITY);
    for depth in 0..DEPTHS {
        deeper(depth, &mut || {
            let (one, other, _) = times(REPETITIONS / DEPTHS, one, other);
            ours = ours.min(one);
            theirs = theirs.min(other);
        });
    }
    (ours, theirs)
}

/// Rows, and how many of them take too much.
#[derive(Default)]
struct Rows {
    count: usize,
    slow: usize,
}

impl Rows {
    fn row(&mut self, on: &str, call: &str, method: &mut dyn FnMut(), raw: &mut dyn FnMut()) {
        let (mut ours, mut theirs) = least(method, raw);
        for _ in 1..TRIES {
            if ours > MOST * theirs {
                let again = least(method, raw);
                ours = ours.min(again.0);
                theirs = theirs.min(again.1);
            }
        }
        let ratio = ours / theirs;
        println!("{on:18} {call:25} {ours:16.1} {theirs:12.1} {ratio:8.3}");
        self.count += 1;
        self.slow += usize::from(ratio > MOST);
    }
}

/// A method with the raw call beside it.
macro_rules! row {
    ($rows:ident, $on:expr, $call:expr, $method:expr, $raw:expr) => {
        $rows.row(
            $on,
            $call,
            &mut || {
                let _ = black_box($method);
            },
            &mut || {
                let _ = black_box($raw);
            },
        )
    };
}

/// The answer's floor, or barge, in the place of the one before, and its refusal.
macro_rules! put {
    ($held:expr, $field:ident, $call:expr) => {{
        let answer = $call;
        $held = answer.$field;
        answer.refusal
    }};
}

/// Prints the rows, and whether each is within the bar.
pub fn methods() -> bool {
    println!(
        "{:18} {:25} {:>16} {:>12} {:>8}",
        "on", "call", "method ns", "raw ns", "ratio"
    );
    let mut rows = Rows::default();
    for pair in both_shapes() {
        if !pair.name.ends_with("spread") {
            on_floor(&mut rows, &pair);
        }
    }
    lists(&mut rows);
    feeds(&mut rows);
    plans(&mut rows);
    barges(&mut rows);
    println!(
        "{} of {} rows above {MOST} of the raw call",
        rows.slow, rows.count
    );
    println!("given by value, and moved out of the result:");
    by_value(&mut Rows::default());
    rows.slow == 0
}

fn floor_of(memory: raw::Floor) -> Floor {
    Floor::try_from(memory).expect("well formed")
}

fn on_floor(rows: &mut Rows, pair: &Pair) {
    let (on, tile) = (pair.name.as_str(), pair.tile);
    let start = black_box(pair.ours);
    let held = floor_of(start);
    let settings: Settings = start.settings;
    let number = start.counters.last + 1;
    let (a, b) = pair.place;
    let canister = Canister { number, a, b };
    let (mut ours, mut theirs) = (held.clone(), start);

    row!(
        rows,
        on,
        "renew",
        ours.renew(black_box(settings)),
        put!(theirs, floor, raw::fresh(black_box(settings)))
    );
    let image = held.to_image().expect("an image");
    let image = black_box(image.as_slice());
    row!(
        rows,
        on,
        "reload",
        ours.reload(image),
        put!(theirs, floor, raw::load(image))
    );
    row!(
        rows,
        on,
        "book, on a copy",
        {
            ours.clone_from(&held);
            ours.book(tile, canister)
        },
        {
            theirs = start;
            put!(theirs, floor, raw::book(&theirs, tile, canister))
        }
    );
    row!(
        rows,
        on,
        "book anywhere, on a copy",
        {
            ours.clone_from(&held);
            ours.book_anywhere(tile, number)
        },
        {
            theirs = start;
            let placed = raw::book_anywhere(&theirs, tile, number);
            theirs = placed.floor;
            (placed.a, placed.b, placed.refusal)
        }
    );
    row!(
        rows,
        on,
        "round, on a copy",
        {
            ours.clone_from(&held);
            ours.round()
        },
        {
            theirs = start;
            let rounded = raw::round(&theirs);
            theirs = rounded.floor;
            (rounded.report, rounded.refusal)
        }
    );
    (ours, theirs) = (held.clone(), start);
    row!(
        rows,
        on,
        "stop and repair",
        (ours.stop(tile), ours.repair(tile)),
        (
            put!(theirs, floor, raw::stop(&theirs, tile)),
            put!(theirs, floor, raw::repair(&theirs, tile))
        )
    );
    row!(
        rows,
        on,
        "keep and forget",
        (ours.keep("ALL"), ours.forget("ALL")),
        (
            put!(theirs, floor, raw::keep(&theirs, "ALL")),
            put!(theirs, floor, raw::forget(&theirs, "ALL"))
        )
    );
    let _ = (
        ours.keep("ALL"),
        put!(theirs, floor, raw::keep(&theirs, "ALL")),
    );
    row!(
        rows,
        on,
        "recall",
        ours.recall("ALL"),
        put!(theirs, floor, raw::recall(&theirs, "ALL"))
    );
    row!(
        rows,
        on,
        "read",
        held.read(tile),
        raw::read(held.as_raw(), tile)
    );
    row!(rows, on, "bound", held.bound(), raw::bound(held.as_raw()));
    let mut buffer = vec![0; image.len()];
    let mut other = buffer.clone();
    row!(
        rows,
        on,
        "write",
        held.write(&mut buffer),
        raw::write(held.as_raw(), &mut other)
    );
    let mut page = [0; raw::LONGEST_PAGE];
    let mut other = page;
    row!(
        rows,
        on,
        "page",
        held.page(&mut page),
        raw::page(held.as_raw(), &mut other)
    );
}

fn by_value(rows: &mut Rows) {
    for pair in both_shapes() {
        if pair.name.ends_with("spread") {
            continue;
        }
        let on = pair.name.as_str();
        let (mut ours, mut theirs) = (floor_of(pair.ours), pair.ours);
        let settings = theirs.settings;
        let image = ours.to_image().expect("an image");
        let image = black_box(image.as_slice());
        row!(
            rows,
            on,
            "fresh",
            ours = Floor::fresh(black_box(settings)).expect("a floor"),
            put!(theirs, floor, raw::fresh(black_box(settings)))
        );
        row!(
            rows,
            on,
            "load",
            ours = Floor::load(image).expect("a floor"),
            put!(theirs, floor, raw::load(image))
        );
    }
}

fn lists(rows: &mut Rows) {
    for (pair, list) in to_list_on() {
        let held = floor_of(pair.ours);
        let (mut ours, mut theirs) = (held.clone(), pair.ours);
        let (mut list, mut other): (Vec<Booking>, _) = (list.clone(), list);
        row!(
            rows,
            &pair.name,
            "book list, on a copy",
            {
                ours.clone_from(&held);
                ours.book_list(&mut list)
            },
            {
                theirs = pair.ours;
                put!(theirs, floor, raw::book_list(&theirs, &mut other))
            }
        );
    }
}

fn feeds(rows: &mut Rows) {
    let (mut ours, mut theirs) = (Throughput::new(), raw::Throughput::default());
    row!(rows, "throughput", "feed", ours.feed(black_box(2)), {
        let told = raw::as_in_c::feed(&theirs, black_box(2));
        theirs = told.throughput;
        (told.kind, told.rounds, told.rate, told.refusal)
    });
}

fn plans(rows: &mut Rows) {
    let entries: Vec<_> = (1..=64)
        .map(|label| Entry::new(label, 4).after(label - 1))
        .collect();
    let held = Plan::new(&entries).expect("a plan");
    let on = "64, a chain";
    row!(
        rows,
        on,
        "offer",
        black_box(&held).offer(),
        raw::plan::offer(black_box(&held).as_raw())
    );
    let mut floor = Floor::load(&[]).expect("the standard floor");
    let report = floor.round().expect("a round");
    let (mut ours, mut theirs) = (held.clone(), *held.as_raw());
    row!(rows, on, "report", ours.report(&report), {
        let planned = raw::plan::report(&theirs, report.as_raw());
        theirs = planned.plan;
        planned.refusal
    });
    let start = *floor.as_raw();
    let (mut our_floor, mut their_floor) = (floor.clone(), start);
    row!(
        rows,
        on,
        "release, on copies",
        {
            ours.clone_from(&held);
            our_floor.clone_from(&floor);
            ours.release(&mut our_floor, 1)
        },
        {
            theirs = *held.as_raw();
            their_floor = start;
            let released = raw::plan::release(&theirs, &their_floor, 1);
            theirs = released.plan;
            their_floor = released.floor;
            (released.number, released.a, released.b, released.refusal)
        }
    );
}

fn barges(rows: &mut Rows) {
    for four in fours() {
        let (on, tile) = (four.lone.name.as_str(), four.lone.tile);
        let held = Box::new(Barge::try_from(four.ours).expect("sound"));
        let start = Box::new(four.ours);
        let number = four.lone.theirs.counters.last + 1;
        let (a, b) = four.lone.place;
        let canister = Canister { number, a, b };
        let (mut ours, mut theirs) = (held.clone(), start.clone());
        row!(
            rows,
            on,
            "barge book, on a copy",
            {
                ours.clone_from(&held);
                ours.book(3, tile, canister)
            },
            {
                *theirs = *start;
                put!(*theirs, barge, raw::barge::book(&theirs, 3, tile, canister))
            }
        );
        row!(
            rows,
            on,
            "barge anywhere, on a copy",
            {
                ours.clone_from(&held);
                ours.book_anywhere(3, tile, number)
            },
            {
                *theirs = *start;
                let placed = raw::barge::book_anywhere(&theirs, 3, tile, number);
                *theirs = placed.barge;
                (placed.a, placed.b, placed.refusal)
            }
        );
        row!(
            rows,
            on,
            "barge round, on a copy",
            {
                ours.clone_from(&held);
                ours.round(3)
            },
            {
                *theirs = *start;
                let rounded = raw::barge::round(&theirs, 3);
                *theirs = rounded.barge;
                (rounded.report, rounded.refusal)
            }
        );
        (*ours, *theirs) = ((*held).clone(), *start);
        row!(
            rows,
            on,
            "barge stop and repair",
            (ours.stop(3, tile), ours.repair(3, tile)),
            (
                put!(*theirs, barge, raw::barge::stop(&theirs, 3, tile)),
                put!(*theirs, barge, raw::barge::repair(&theirs, 3, tile))
            )
        );
    }
}
