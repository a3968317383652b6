//! Four floors, one allowance.

use crate::SETTINGS;
use ceromby::raw::barge::{book, book_anywhere, repair, round, stop, FLOORS, MAX_ALLOWANCE};
use ceromby::raw::{fresh, refusal, Barge, Canister};

fn empty(allowance: u32) -> Barge {
    Barge {
        floors: [fresh(SETTINGS).floor; FLOORS],
        allowance,
    }
}

fn canister(number: u32, a: u16) -> Canister {
    Canister { number, a, b: 0 }
}

#[test]
fn what_they_do_on_a_lone_floor() {
    let barge = empty(MAX_ALLOWANCE);
    let lone = barge.floors[0];
    for at in 0..FLOORS {
        let floor = at as u32;
        let with = |lone| {
            let mut after = barge;
            after.floors[at] = lone;
            after
        };
        let booked = with(ceromby::raw::book(&lone, 0, canister(7, 60)).floor);
        let answer = book(&barge, floor, 0, canister(7, 60));
        assert_eq!((answer.refusal, answer.barge), (0, booked));
        let placed = book_anywhere(&barge, floor, 0, 9);
        assert_eq!((placed.refusal, placed.place()), (0, Some((0, 0))));
        let due = with(ceromby::raw::book_anywhere(&lone, 0, 9).floor);
        assert_eq!(placed.barge, due);
        let stopped = stop(&barge, floor, 0);
        let due = with(ceromby::raw::stop(&lone, 0).floor);
        assert_eq!((stopped.refusal, stopped.barge), (0, due));
        let repaired = repair(&due, floor, 0);
        let due = with(ceromby::raw::repair(&due.floors[at], 0).floor);
        assert_eq!((repaired.refusal, repaired.barge), (0, due));
        let rounded = round(&booked, floor);
        let due = ceromby::raw::round(&booked.floors[at]);
        assert_eq!((rounded.refusal, rounded.barge), (0, with(due.floor)));
        assert_eq!(rounded.report, due.report);
        assert_eq!((booked.total(), rounded.barge.total()), (1, 0));
    }
}

#[test]
fn the_allowance() {
    let mut barge = empty(3);
    for floor in [0, 3, 1] {
        let answer = book(&barge, floor, 0, canister(5, 60));
        assert_eq!(answer.refusal, 0);
        barge = answer.barge;
    }
    for floor in 0..4 {
        assert_eq!(
            book(&barge, floor, 0, canister(6, 0)).refusal,
            refusal::OVERLOADED
        );
        let placed = book_anywhere(&barge, floor, 0, 6);
        assert_eq!(
            (placed.refusal, placed.place()),
            (refusal::OVERLOADED, None)
        );
        assert_eq!((placed.barge, placed.a, placed.b), (barge, 0, 0));
        assert_eq!(stop(&barge, floor, 0).refusal, 0);
        assert_eq!(round(&barge, floor).refusal, 0);
    }
    assert_eq!(
        book(&barge, 1, 0, canister(6, 50)).refusal,
        refusal::TOO_CLOSE
    );
    let less = round(&barge, 3);
    assert_eq!(less.report.deliveries[0].numbers, [5, 0, 0, 0]);
    assert_eq!(book(&less.barge, 1, 0, canister(6, 0)).refusal, 0);
}

#[test]
fn refusals() {
    let sound = empty(1);
    for floor in [4, 256, u32::MAX] {
        assert_eq!(
            book(&sound, floor, 9, canister(0, 99)).refusal,
            refusal::NO_FLOOR
        );
        assert_eq!(
            book_anywhere(&sound, floor, 9, 0).refusal,
            refusal::NO_FLOOR
        );
        assert_eq!(stop(&sound, floor, 9).refusal, refusal::NO_FLOOR);
        assert_eq!(repair(&sound, floor, 9).refusal, refusal::NO_FLOOR);
        assert_eq!(round(&sound, floor).refusal, refusal::NO_FLOOR);
    }
    let mut bad = vec![empty(0), empty(MAX_ALLOWANCE + 1), empty(u32::MAX)];
    for at in 0..FLOORS {
        let mut barge = sound;
        barge.floors[at].tiles[0].running = 2;
        bad.push(barge);
    }
    for barge in bad {
        for floor in [0, 1, 2, 3, 4] {
            let answer = book(&barge, floor, 0, canister(5, 0));
            assert_eq!((answer.refusal, answer.barge), (refusal::MALFORMED, barge));
            let rounded = round(&barge, floor);
            assert_eq!(
                (rounded.refusal, rounded.barge),
                (refusal::MALFORMED, barge)
            );
            assert_eq!(rounded.report.deliveries[0].count, 0);
        }
    }
}
