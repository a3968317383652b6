//! "Trials on small floors", all rows.

use crate::common::*;
use oracle::{book, fresh, write, Settings, NONE};

fn delivery_bound(settings: &Settings, held: u64) -> u64 {
    let rounds = u64::from((settings.width - settings.length) / settings.travel) + 1;
    (settings.tile_count() as u64 - 1) * (1 + held * rounds)
}

fn walk_to_hopper(start: u16, stands: [u16; 3]) {
    let mut floor = booked(&line(2, 1), 0, 5, start, 0);
    for a in stands {
        let answer = turned(&floor);
        assert_eq!(answer.report.at(0), []);
        assert_eq!(answer.report.grants[..2], [0, 1]);
        floor = answer.floor;
        assert_eq!(floor.members(0), [canister(5, a, 0)]);
    }
    let answer = turned(&floor);
    assert_eq!(answer.report.at(0), [5]);
    assert_eq!(answer.report.deliveries[0].numbers, [5, 0, 0, 0]);
    assert_eq!(answer.floor.counters, counters(5, 1, 1));
    assert_eq!(answer.floor.members(0), []);
}

#[test]
fn a_canister_walks_to_the_hopper() {
    walk_to_hopper(0, [20, 40, 60]);
    assert_eq!(delivery_bound(&plain(2, 1, 1), 1), 5);
}

#[test]
fn at_the_edge_it_does_not_cross() {
    walk_to_hopper(10, [30, 50, 70]);
}

#[test]
fn spacing_of_bookings() {
    let floor = booked(&line(2, 1), 0, 1, 0, 0);
    assert_eq!(book(&floor, 0, canister(2, 39, 39)).refusal, 34);
    assert_eq!(book(&floor, 0, canister(2, 40, 0)).refusal, 0);
}

#[test]
fn border_of_bookings() {
    assert_eq!(book(&line(2, 1), 0, canister(1, 70, 0)).refusal, 0);
    assert_eq!(book(&line(2, 1), 0, canister(1, 71, 0)).refusal, 7);
}

#[test]
fn measures() {
    let with = |length, gap, travel| {
        fresh(Settings {
            length,
            gap,
            travel,
            ..plain(2, 1, 1)
        })
        .refusal
    };
    assert_eq!(with(30, 10, 29), 0);
    assert_eq!(with(30, 10, 30), 3);
    assert_eq!(with(20, 0, 10), 3);
    assert_eq!(with(21, 0, 10), 0);
}

#[test]
fn westward_landing() {
    let floor = after(&booked(&line(3, 0), 2, 1, 5, 0), 2);
    assert_eq!(floor.members(1), [canister(1, 70, 0)]);
    assert_eq!(floor.members(2), []);
}

#[test]
fn a_floor_cut_off() {
    let floor = after(&line(4, 0), 3);
    let distances = |floor: &oracle::Floor| [0, 1, 2, 3].map(|tile| floor.tiles[tile].distance);
    assert_eq!(distances(&floor), [0, 1, 2, 3]);
    let floor = after(&stopped(&floor, 1), 1);
    assert_eq!(distances(&floor), [0, NONE, NONE, 3]);
    let floor = after(&floor, 1);
    assert_eq!(distances(&floor), [0, NONE, NONE, NONE]);
}

#[test]
fn ties_go_to_the_lower_tile() {
    let floor = after(&made(plain(2, 2, 3)), 3);
    assert_eq!(floor.tiles[0].distance, 2);
    assert_eq!(floor.tiles[0].next, 3);
}

#[test]
fn grants_alternate() {
    let floor = booked(&line(3, 1), 0, 1, 0, 0);
    let first = turned(&booked(&floor, 2, 2, 0, 0));
    assert_eq!(first.report.grants[..3], [0, 1, 0]);
    let second = turned(&first.floor);
    assert_eq!(second.report.grants[..3], [0, 4, 0]);
}

#[test]
fn short_images() {
    let mut buffer = [0xee; 100];
    let answer = write(&line(2, 1), &mut buffer);
    assert_eq!((answer.refusal, answer.length), (0, 64));
    assert!(buffer[64..].iter().all(|byte| *byte == 0xee));
    // As amended by [9]; see `blank`.
    assert_eq!(load_refusal(&[]), 0);
}
