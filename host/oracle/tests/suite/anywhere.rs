//! Bookings without a place.

use crate::common::*;
use oracle::random::{self, Rng};
use oracle::{
    book, book_anywhere, place_by_candidates, place_by_pairs, well_formed, Floor, PlaceAnswer,
    Settings,
};

/// The floor after an accepted booking without a place, and the place told.
fn placed(floor: &Floor, tile: u32, number: u32) -> (Floor, (u16, u16)) {
    let answer = book_anywhere(floor, tile, number);
    assert_eq!(answer.refusal, 0);
    assert!(well_formed(&answer.floor));
    (answer.floor, (answer.a, answer.b))
}

/// A refusal that gives the same floor back and the place (0, 0).
fn refused(floor: &Floor, answer: PlaceAnswer) -> u8 {
    assert_ne!(answer.refusal, 0);
    assert_eq!(answer.floor, *floor);
    assert_eq!((answer.a, answer.b), (0, 0));
    answer.refusal
}

fn try_anywhere(floor: &Floor, tile: u32, number: u32) -> u8 {
    refused(floor, book_anywhere(floor, tile, number))
}

/// The places that bookings take one after the other until there is none left.
fn places(floor: &Floor, tile: u32) -> Vec<(u16, u16)> {
    let mut floor = *floor;
    let mut places = Vec::new();
    while book_anywhere(&floor, tile, floor.counters.last + 1).refusal == 0 {
        let (after, place) = placed(&floor, tile, floor.counters.last + 1);
        places.push(place);
        floor = after;
    }
    assert_eq!(try_anywhere(&floor, tile, floor.counters.last + 1), 40);
    places
}

#[test]
fn lowest_b_then_lowest_a() {
    let floor = line(2, 1);
    assert_eq!(places(&floor, 0), [(0, 0), (40, 0), (0, 40), (40, 40)]);
    let beside = |a, b| places(&booked(&floor, 0, 1, a, b), 0);
    assert_eq!(beside(39, 0), [(0, 40), (40, 40)]);
    assert_eq!(beside(40, 0), [(0, 0), (0, 40), (40, 40)]);
    assert_eq!(beside(0, 39), [(40, 0), (40, 40)]);
    assert_eq!(beside(0, 40), [(0, 0), (40, 0), (40, 40)]);
    assert_eq!(beside(30, 1), [(70, 0), (70, 40), (0, 41)]);
    assert_eq!(beside(30, 30), [(70, 0), (70, 40), (0, 70)]);
    assert_eq!(beside(31, 31), []);
}

#[test]
fn up_to_the_border() {
    let middle = booked(&line(2, 1), 0, 1, 30, 30);
    let column = booked(&middle, 0, 2, 30, 70);
    assert_eq!(places(&column, 0), [(70, 0), (70, 40)]);
    let row = booked(&middle, 0, 2, 70, 30);
    assert_eq!(places(&row, 0), [(0, 70), (40, 70)]);
    let corner = booked(&column, 0, 3, 70, 30);
    assert_eq!(places(&corner, 0), [(70, 70)]);
}

#[test]
fn sixteen_places() {
    let settings = Settings {
        length: 10,
        gap: 20,
        travel: 9,
        ..plain(2, 1, 1)
    };
    let all: Vec<(u16, u16)> = (0..16).map(|at| (at % 4 * 30, at / 4 * 30)).collect();
    assert_eq!(places(&made(settings), 0), all);
}

/// Tile 2 is the hopper, tile 1 no source, tile 0 has no place left.
fn full() -> Floor {
    let settings = Settings {
        sources: 0b1001,
        ..plain(4, 1, 2)
    };
    booked(&made(settings), 0, 7, 35, 35)
}

#[test]
fn refused_in_order() {
    let floor = full();
    let halted = stopped(&floor, 0);
    assert_eq!(try_anywhere(&malformed(), 99, 0), 30);
    assert_eq!(try_anywhere(&malformed(), 0, 9), 30);
    for tile in [4, 63, 64, 256, 1 << 16, u32::MAX] {
        assert_eq!(try_anywhere(&floor, tile, 0), 4);
    }
    assert_eq!(try_anywhere(&floor, 1, 0), 5);
    assert_eq!(try_anywhere(&floor, 2, 8), 5);
    assert_eq!(try_anywhere(&halted, 0, 0), 6);
    assert_eq!(try_anywhere(&halted, 0, 7), 31);
    assert_eq!(try_anywhere(&halted, 0, 8), 31);
    assert_eq!(try_anywhere(&floor, 0, 7), 33);
    assert_eq!(try_anywhere(&floor, 0, 1), 33);
    assert_eq!(try_anywhere(&floor, 0, 8), 40);
    assert_eq!(placed(&floor, 3, 8).1, (0, 0));
}

#[test]
fn beyond_the_last_number() {
    let floor = booked(&line(2, 1), 0, u32::MAX, 0, 0);
    assert_eq!(try_anywhere(&floor, 0, u32::MAX), 33);
}

/// A floor with a fill tile that runs, and that tile.
fn with_source(rng: &mut Rng) -> (Floor, u32) {
    loop {
        let floor = random::floor(rng);
        let tile = rng.below(floor.settings.tile_count() as u64) as usize;
        let last = floor.counters.last;
        if floor.settings.is_source(tile) && floor.tiles[tile].running == 1 && last < u32::MAX {
            return (floor, tile as u32);
        }
    }
}

/// Whether a pair keeps the spacing, by a booking there.
fn keeps(floor: &Floor, tile: u32, number: u32, a: u16, b: u16) -> bool {
    book(floor, tile, canister(number, a, b)).refusal == 0
}

#[test]
fn the_outcome_of_a_booking_at_that_place() {
    let mut rng = Rng::new(101);
    let mut seen = [0; 4];
    for _ in 0..6_000 {
        let (floor, tile) = with_source(&mut rng);
        let number = floor.counters.last + 1;
        let answer = book_anywhere(&floor, tile, number);
        let there = book(&floor, tile, canister(number, answer.a, answer.b));
        match answer.refusal {
            0 => assert_eq!((there.refusal, there.floor), (0, answer.floor)),
            refusal => assert_eq!((refusal, there.refusal), (40, 34)),
        }
        seen[match answer.refusal {
            0 if answer.b > 0 => 0,
            0 if answer.a > 0 => 1,
            0 => 2,
            _ => 3,
        }] += 1;
    }
    assert!(seen.iter().all(|count| *count > 100), "{seen:?}");
}

#[test]
fn no_lower_pair_keeps_the_spacing() {
    let mut rng = Rng::new(102);
    let mut seen = [0; 2];
    for _ in 0..3_000 {
        let (floor, tile) = with_source(&mut rng);
        let number = floor.counters.last + 1;
        let span = floor.settings.span();
        if span > 40 {
            continue;
        }
        let answer = book_anywhere(&floor, tile, number);
        let lower = |a, b| answer.refusal == 40 || (b, a) < (answer.b, answer.a);
        let mut pairs = (0..=span).flat_map(|b| (0..=span).map(move |a| (a, b)));
        assert!(!pairs.any(|(a, b)| lower(a, b) && keeps(&floor, tile, number, a, b)));
        seen[usize::from(answer.refusal == 40)] += 1;
    }
    assert!(seen.iter().all(|count| *count > 100), "{seen:?}");
}

#[test]
fn both_ways_to_seek_agree() {
    let mut rng = Rng::new(103);
    let mut seen = [0; 2];
    for _ in 0..6_000 {
        let floor = random::floor(&mut rng);
        if floor.settings.span() > 700 {
            continue;
        }
        for tile in 0..floor.settings.tile_count() {
            let place = place_by_pairs(&floor, tile);
            assert_eq!(place, place_by_candidates(&floor, tile));
            seen[usize::from(place.is_none())] += 1;
        }
    }
    assert!(seen.iter().all(|count| *count > 1_000), "{seen:?}");
}
