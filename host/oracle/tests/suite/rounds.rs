//! Single rounds where the paper's words decide.

use crate::common::*;
use oracle::{fresh, round, Counters, Floor, Settings, Tile, NONE};

fn numbers(floor: &Floor, tile: usize) -> Vec<u32> {
    floor.members(tile).iter().map(|c| c.number).collect()
}

#[test]
fn a_fresh_floor() {
    let floor = fresh(plain(3, 2, 4)).floor;
    for tile in 0..6 {
        let distance = if tile == 4 { 0 } else { NONE };
        assert_eq!(
            floor.tiles[tile],
            Tile {
                distance,
                ..Tile::IDLE
            }
        );
    }
    assert!(floor.tiles[6..].iter().all(|tile| *tile == Tile::ZERO));
    assert_eq!(floor.counters, Counters::ZERO);
}

#[test]
fn booking_adds_one() {
    let floor = booked(&booked(&line(2, 1), 0, 9, 0, 0), 0, 12, 50, 50);
    assert_eq!(floor.counters, counters(12, 2, 0));
    assert_eq!(floor.members(0), [canister(9, 0, 0), canister(12, 50, 50)]);
}

#[test]
fn stop_and_repair_keep_the_canisters() {
    let floor = after(&booked(&line(3, 2), 0, 1, 0, 0), 3);
    let halted = stopped(&floor, 0);
    assert_eq!(
        halted.tiles[0],
        Tile {
            running: 0,
            distance: NONE,
            next: 0,
            token: 0,
            count: 1
        }
    );
    let mut expected = floor;
    expected.tiles[0] = halted.tiles[0];
    assert_eq!(halted, expected);
    expected.tiles[0].running = 1;
    assert_eq!(repaired(&halted, 0), expected);
}

#[test]
fn a_stopped_tile_moves_and_grants_nothing() {
    let floor = booked(&booked(&line(3, 2), 0, 1, 10, 0), 1, 2, 10, 0);
    let settled = after(&floor, 2);
    let halted = stopped(&settled, 1);
    let answer = turned(&halted);
    assert_eq!(answer.report.grants, [0; 64]);
    assert_eq!(answer.floor.canisters, halted.canisters);
    // Tile 0 still had its arrow from the round before and loses it now.
    assert_eq!(halted.tiles[0].next, 4);
    assert_eq!(answer.floor.tiles[0].next, 0);
    assert_eq!(answer.floor.tiles[1], halted.tiles[1]);
}

#[test]
fn no_canister_travels_twice() {
    let mut floor = after(&line(4, 3), 3);
    floor = booked(&floor, 0, 1, 70, 0);
    floor = booked(&floor, 1, 2, 50, 40);
    floor = booked(&floor, 2, 3, 60, 0);
    let answer = turned(&floor);
    assert_eq!(answer.report.grants[..4], [0, 1, 1, 1]);
    assert_eq!(answer.floor.members(0), []);
    assert_eq!(
        answer.floor.members(1),
        [canister(1, 0, 0), canister(2, 70, 40)]
    );
    assert_eq!(answer.floor.members(2), []);
    assert_eq!(answer.report.at(0), [3]);
}

#[test]
fn members_stay_in_order() {
    // The higher number stands on the tile that the lower one enters.
    let floor = after(&line(3, 2), 2);
    let floor = booked(&floor, 1, 5, 40, 0);
    let floor = booked(&floor, 0, 6, 70, 0);
    let floor = booked(&floor, 1, 9, 40, 40);
    let answer = turned(&floor);
    assert_eq!(numbers(&answer.floor, 1), [5, 6, 9]);
}

#[test]
fn landing_on_all_four_sides() {
    // The middle of a 3 by 3 floor, reached from its neighbours.
    for (hopper, from, start, landed) in [
        (7, 1, (65, 3), (0, 3)),
        (1, 7, (19, 3), (70, 3)),
        (5, 3, (3, 51), (3, 0)),
        (3, 5, (3, 0), (3, 70)),
    ] {
        let floor = after(&made(plain(3, 3, hopper)), 8);
        let floor = booked(&floor, from, 1, start.0, start.1);
        let answer = turned(&floor);
        assert_eq!(
            answer.floor.members(4),
            [canister(1, landed.0, landed.1)],
            "{from}"
        );
    }
}

#[test]
fn no_crossing_at_the_very_edge() {
    // Westward from 20 ends at 0 and doesn't cross.
    let floor = booked(&line(2, 0), 1, 1, 20, 0);
    assert_eq!(after(&floor, 1).members(1), [canister(1, 0, 0)]);
    let floor = booked(&line(2, 0), 1, 1, 19, 0);
    assert_eq!(turned(&floor).report.at(0), [1]);
}

#[test]
fn the_gap_is_exact() {
    // A tile on the way holds one canister and is asked from behind.
    let grants = |a| {
        let floor = after(&line(4, 2), 3);
        let floor = booked(&floor, 0, 1, 0, 0);
        let floor = booked(&floor, 1, 2, a, 0);
        turned(&floor).report.grants[1]
    };
    assert_eq!(grants(39), 0);
    assert_eq!(grants(40), 1);
    let grants = |a| {
        let floor = after(&line(4, 1), 3);
        let floor = booked(&floor, 3, 1, 0, 0);
        let floor = booked(&floor, 2, 2, a, 0);
        turned(&floor).report.grants[2]
    };
    assert_eq!(grants(31), 0);
    assert_eq!(grants(30), 4);
    let grants = |b| {
        let floor = after(&made(plain(1, 3, 2)), 3);
        let floor = booked(&floor, 0, 1, 0, 0);
        let floor = booked(&floor, 1, 2, 0, b);
        turned(&floor).report.grants[1]
    };
    assert_eq!(grants(39), 0);
    assert_eq!(grants(40), 2);
    let grants = |b| {
        let floor = after(&made(plain(1, 3, 0)), 3);
        let floor = booked(&floor, 2, 1, 0, 0);
        let floor = booked(&floor, 1, 2, 0, b);
        turned(&floor).report.grants[1]
    };
    assert_eq!(grants(31), 0);
    assert_eq!(grants(30), 3);
}

#[test]
fn without_a_gap_the_turn_stays() {
    let floor = after(&line(3, 2), 2);
    let floor = booked(&floor, 0, 1, 0, 0);
    let floor = booked(&floor, 1, 2, 0, 0);
    let answer = turned(&floor);
    assert_eq!(floor.tiles[1].token, 0);
    assert_eq!(answer.report.grants[..3], [0, 0, 1]);
    assert_eq!(answer.floor.tiles[1].token, 1);
    assert_eq!(answer.floor.members(0), floor.members(0));
}

#[test]
fn a_turn_that_no_longer_wants_passes_on() {
    let mut floor = after(&booked(&line(3, 1), 2, 1, 50, 0), 1);
    assert_eq!(floor.tiles[1].token, 4);
    floor.tiles[1].token = 1;
    let answer = turned(&floor);
    assert_eq!(answer.report.grants[1], 4);
    assert_eq!(answer.floor.tiles[1].token, 4);
}

#[test]
fn the_turn_goes_round() {
    // The middle hopper with all four neighbours wanting.
    let mut floor = made(plain(3, 3, 4));
    for (number, tile) in [1, 3, 5, 7].into_iter().enumerate() {
        floor = booked(&floor, tile, number as u32 + 1, 35, 35);
    }
    for expected in [1, 2, 3, 4, 1, 2] {
        let answer = turned(&floor);
        assert_eq!(answer.report.grants[4], expected);
        assert_eq!(answer.floor.tiles[4].token, expected % 4 + 1);
        floor = answer.floor;
    }
    // Alone, a side keeps the turn; with none, the turn is none.
    let floor = after(&booked(&line(2, 1), 0, 1, 60, 0), 1);
    assert_eq!(floor.tiles[1].token, 1);
    assert_eq!(after(&floor, 1).tiles[1].token, 0);
}

#[test]
fn two_tiles_that_face_each_other() {
    // Stale distances make 1 and 2 head for each other, far from the hopper.
    let mut floor = booked(&line(5, 4), 1, 1, 30, 0);
    floor = booked(&floor, 2, 2, 40, 0);
    for (tile, next) in [(1, 4), (2, 1)] {
        floor.tiles[tile].distance = 1;
        floor.tiles[tile].next = next;
    }
    let answer = turned(&floor);
    assert_eq!(answer.report.grants[..5], [0, 4, 1, 0, 0]);
    assert_eq!(answer.floor.members(1), [canister(1, 50, 0)]);
    assert_eq!(answer.floor.members(2), [canister(2, 20, 0)]);
}

#[test]
fn four_in_one_round() {
    let settings = Settings {
        length: 25,
        gap: 0,
        ..plain(2, 1, 1)
    };
    let mut floor = made(settings);
    for (number, b) in [(3, 75), (4, 0), (8, 50), (9, 25)] {
        floor = booked(&floor, 0, number, 75, b);
    }
    let answer = turned(&floor);
    assert_eq!(answer.report.deliveries[0].count, 4);
    assert_eq!(answer.report.deliveries[0].numbers, [3, 4, 8, 9]);
    assert_eq!(answer.floor.counters, counters(9, 4, 4));
}

#[test]
fn the_greatest_measures() {
    let settings = Settings {
        width: 60_000,
        length: 59_999,
        gap: 0,
        travel: 59_998,
        ..plain(2, 1, 1)
    };
    let floor = booked(&made(settings), 0, 1, 1, 1);
    assert_eq!(turned(&floor).report.at(0), [1]);
    let settings = Settings {
        width: 60_000,
        length: 20_000,
        travel: 19_999,
        ..settings
    };
    let floor = booked(&made(settings), 0, 1, 40_000, 40_000);
    assert_eq!(turned(&floor).report.at(0), [1]);
}

#[test]
fn a_round_on_the_zero_floor_is_refused() {
    assert_eq!(round(&Floor::ZERO).refusal, 30);
}
