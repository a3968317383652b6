//! Four floors with one allowance (request [13]).

use crate::common::*;
use oracle::random::{self, Call, Rng};
use oracle::{
    barge_book, barge_book_anywhere, barge_repair, barge_round, barge_stop, book, book_anywhere,
    repair, round, stop, well_formed, Barge, Floor, Report, FLOORS, MAX_ALLOWANCE,
};

/// Two canisters on each floor, eight in all: tile 0 has no place left, tile
/// 1 a canister at (0, 0), tile 2 is the hopper.
fn loaded(allowance: u32) -> Barge {
    let floor = booked(&booked(&line(3, 2), 0, 3, 35, 35), 1, 5, 0, 0);
    let barge = Barge {
        floors: [floor; FLOORS],
        allowance,
    };
    assert_eq!(barge.total(), 8);
    barge
}

/// The answers of all five calls where a booking at (40, 0) of tile 1 could go,
/// with the barge, the place and the report of a refusal seen to.
fn answers(barge: &Barge, floor: u32) -> [u8; 5] {
    let made = [
        barge_book(barge, floor, 1, canister(9, 40, 0)),
        barge_stop(barge, floor, 1),
        barge_repair(barge, floor, 1),
    ];
    for answer in made {
        assert!(answer.refusal == 0 || answer.barge == *barge);
    }
    let placed = barge_book_anywhere(barge, floor, 1, 9);
    if placed.refusal != 0 {
        assert_eq!((placed.barge, placed.a, placed.b), (*barge, 0, 0));
    }
    let rounded = barge_round(barge, floor);
    if rounded.refusal != 0 {
        assert_eq!((rounded.barge, rounded.report), (*barge, Report::ZERO));
    }
    let [book, stop, repair] = made.map(|answer| answer.refusal);
    [book, placed.refusal, stop, repair, rounded.refusal]
}

#[test]
fn what_they_do_on_a_lone_floor() {
    let barge = loaded(9);
    for at in 0..FLOORS {
        let lone = &barge.floors[at];
        let with = |floor| {
            let mut after = barge;
            after.floors[at] = floor;
            after
        };
        let floor = at as u32;
        let canister = canister(9, 40, 0);
        let there = barge_book(&barge, floor, 1, canister);
        let due = with(book(lone, 1, canister).floor);
        assert_eq!((there.refusal, there.barge), (0, due));
        let placed = barge_book_anywhere(&barge, floor, 1, 9);
        assert_eq!((placed.refusal, placed.barge), (0, due));
        assert_eq!((placed.a, placed.b), (40, 0));
        let halted = barge_stop(&barge, floor, 0);
        let due = with(stop(lone, 0).floor);
        assert_eq!((halted.refusal, halted.barge), (0, due));
        let again = barge_repair(&halted.barge, floor, 0);
        let due = with(repair(&due.floors[at], 0).floor);
        assert_eq!((again.refusal, again.barge), (0, due));
        let turned = barge_round(&barge, floor);
        let due = round(lone);
        assert_eq!((turned.refusal, turned.barge), (0, with(due.floor)));
        assert_eq!(turned.report, due.report);
    }
}

#[test]
fn barges_that_are_30() {
    for allowance in [0, MAX_ALLOWANCE + 1, 65_535, u32::MAX] {
        for floor in [0, 3, 4, u32::MAX] {
            assert_eq!(answers(&loaded(allowance), floor), [30; 5]);
        }
    }
    for at in 0..FLOORS {
        for bad in [malformed(), Floor::ZERO] {
            let mut barge = loaded(100);
            barge.floors[at] = bad;
            for floor in [0, 1, 2, 3, 4, 256, u32::MAX] {
                assert_eq!(answers(&barge, floor), [30; 5]);
            }
        }
    }
}

#[test]
fn floor_numbers() {
    for floor in [4, 5, 64, 255, 256, 257, 1 << 16, u32::MAX] {
        assert_eq!(answers(&loaded(100), floor), [49; 5]);
        assert_eq!(answers(&loaded(1), floor), [49; 5]);
    }
}

#[test]
fn the_allowance() {
    for floor in 0..4 {
        for allowance in [9, 10, MAX_ALLOWANCE] {
            assert_eq!(answers(&loaded(allowance), floor), [0, 0, 0, 32, 0]);
        }
        for allowance in [1, 2, 7, 8] {
            assert_eq!(answers(&loaded(allowance), floor), [50, 50, 0, 32, 0]);
        }
    }
}

#[test]
fn the_allowance_is_checked_last() {
    let barge = loaded(8);
    let halted = barge_stop(&barge, 2, 1).barge;
    let book = |barge: &Barge, tile, number, a, b| {
        let answer = barge_book(barge, 2, tile, canister(number, a, b));
        assert_eq!(answer.barge, *barge);
        answer.refusal
    };
    assert_eq!(book(&barge, 3, 0, 99, 0), 4);
    assert_eq!(book(&barge, 2, 0, 99, 0), 5);
    assert_eq!(book(&halted, 1, 0, 99, 0), 6);
    assert_eq!(book(&halted, 1, 5, 71, 0), 7);
    assert_eq!(book(&halted, 1, 5, 0, 0), 31);
    assert_eq!(book(&barge, 1, 5, 0, 0), 33);
    assert_eq!(book(&barge, 1, 6, 39, 39), 34);
    assert_eq!(book(&barge, 1, 6, 40, 0), 50);
    let anywhere = |barge: &Barge, tile, number| {
        let answer = barge_book_anywhere(barge, 2, tile, number);
        assert_eq!((answer.barge, answer.a, answer.b), (*barge, 0, 0));
        answer.refusal
    };
    assert_eq!(anywhere(&barge, 3, 0), 4);
    assert_eq!(anywhere(&barge, 2, 0), 5);
    assert_eq!(anywhere(&halted, 1, 0), 6);
    assert_eq!(anywhere(&halted, 1, 5), 31);
    assert_eq!(anywhere(&barge, 1, 5), 33);
    assert_eq!(anywhere(&barge, 0, 6), 40);
    assert_eq!(anywhere(&barge, 1, 6), 50);
}

#[test]
fn a_delivery_on_any_floor_makes_room() {
    for at in 0..4 {
        let mut barge = loaded(8);
        let other = (at + 1) % 4;
        assert_eq!(answers(&barge, other)[0], 50);
        let mut delivered = 0;
        while delivered == 0 {
            let turned = barge_round(&barge, at);
            delivered = turned.report.delivered().count() as u32;
            assert_eq!(turned.barge.total(), barge.total() - delivered);
            barge = turned.barge;
        }
        assert_eq!(answers(&barge, other), [0, 0, 0, 32, 0]);
    }
}

/// Lists of calls that name any floor: the other three stay, each floor is what
/// its own calls make of it, and the total is what was booked less what was
/// delivered.
#[test]
fn lists_on_all_floors() {
    let mut rng = Rng::new(131);
    let mut seen = [0; 256];
    for _ in 0..60 {
        let floors = [(); FLOORS].map(|()| random::floor(&mut rng));
        let total: u32 = floors
            .iter()
            .flat_map(|floor| &floor.tiles)
            .map(|tile| u32::from(tile.count))
            .sum();
        let mut barge = Barge {
            floors,
            allowance: (total + rng.below(4) as u32).clamp(1, MAX_ALLOWANCE),
        };
        let mut lone = floors;
        for _ in 0..60 {
            let at = rng.below(4);
            let floor = at as u32;
            let before = lone[at as usize];
            let room = barge.total() < barge.allowance;
            let (answer, due, after) = match random::call(&mut rng, &before) {
                Call::Book { tile, canister } => {
                    let due = book(&before, tile, canister);
                    let answer = barge_book(&barge, floor, tile, canister);
                    (answer.refusal, (due.refusal, due.floor), answer.barge)
                }
                Call::BookAnywhere { tile, number } => {
                    let due = book_anywhere(&before, tile, number);
                    let answer = barge_book_anywhere(&barge, floor, tile, number);
                    (answer.refusal, (due.refusal, due.floor), answer.barge)
                }
                Call::Stop { tile } => {
                    let due = stop(&before, tile);
                    let answer = barge_stop(&barge, floor, tile);
                    (answer.refusal, (due.refusal, due.floor), answer.barge)
                }
                Call::Repair { tile } => {
                    let due = repair(&before, tile);
                    let answer = barge_repair(&barge, floor, tile);
                    (answer.refusal, (due.refusal, due.floor), answer.barge)
                }
                _ => {
                    let due = round(&before);
                    let answer = barge_round(&barge, floor);
                    assert_eq!(answer.report, due.report);
                    (answer.refusal, (due.refusal, due.floor), answer.barge)
                }
            };
            let books = due.1.counters.booked != before.counters.booked;
            match books && !room {
                true => assert_eq!(answer, 50),
                false => {
                    assert_eq!(answer, due.0);
                    lone[at as usize] = due.1;
                }
            }
            assert_eq!(after.floors, lone);
            assert_eq!(after.allowance, barge.allowance);
            assert!(after.floors.iter().all(well_formed));
            let aboard = |floor: &Floor| {
                let counters = &floor.counters;
                u64::from(counters.booked) - counters.delivered_in_all()
            };
            let joint: u64 = after.floors.iter().map(aboard).sum();
            assert_eq!(u64::from(after.total()), joint);
            seen[usize::from(answer)] += 1;
            barge = after;
        }
    }
    for answer in [0, 4, 5, 33, 50] {
        assert!(seen[answer] > 5, "{answer}: {}", seen[answer]);
    }
}
