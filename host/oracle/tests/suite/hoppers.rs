//! One to four hoppers.

use crate::common::*;
use crate::naive;
use oracle::random::{self, Rng};
use oracle::{book, fresh, repair, stop, well_formed, Delivery, Floor, Settings};

fn fresh_refusal(settings: Settings) -> u8 {
    let answer = fresh(settings);
    assert!(answer.refusal == 0 || answer.floor == Floor::ZERO);
    answer.refusal
}

fn distances(floor: &Floor) -> Vec<u8> {
    let tiles = &floor.tiles[..floor.settings.tile_count()];
    tiles.iter().map(|tile| tile.distance).collect()
}

#[test]
fn a_fresh_floor_takes_one_to_four() {
    let with = |hoppers: &[u8]| fresh_refusal(with_hoppers(4, 2, hoppers));
    assert_eq!(with(&[]), 2);
    assert_eq!(with(&[7]), 0);
    assert_eq!(with(&[0, 7]), 0);
    assert_eq!(with(&[0, 1, 7]), 0);
    assert_eq!(with(&[0, 1, 6, 7]), 0);
    assert_eq!(with(&[0, 1, 2, 6, 7]), 2);
    assert_eq!(with(&[0, 8]), 2);
    assert_eq!(with(&[0, 1, 2, 63]), 2);
    let all = Settings {
        hoppers: u64::MAX,
        sources: 0,
        ..plain(8, 8, 0)
    };
    assert_eq!(fresh_refusal(all), 2);
}

#[test]
fn no_hopper_is_a_fill_tile() {
    let good = with_hoppers(4, 2, &[1, 3, 4, 6]);
    for hopper in [1, 3, 4, 6] {
        let sources = good.sources | 1 << hopper;
        assert_eq!(fresh_refusal(Settings { sources, ..good }), 2, "{hopper}");
    }
    let sources = good.hoppers;
    assert_eq!(fresh_refusal(Settings { sources, ..good }), 2);
    let late = Settings {
        columns: 9,
        sources,
        travel: 0,
        ..good
    };
    assert_eq!(fresh_refusal(late), 1);
    assert_eq!(fresh_refusal(Settings { columns: 4, ..late }), 2);
    let late = Settings { travel: 0, ..good };
    assert_eq!(fresh_refusal(late), 3);
}

#[test]
fn the_rules_hold_for_every_hopper() {
    let floor = after(&made(with_hoppers(4, 2, &[1, 3, 4, 6])), 2);
    assert_eq!(distances(&floor), [1, 0, 1, 0, 0, 1, 0, 1]);
    for hopper in [1, 3, 4, 6] {
        assert_eq!(stop(&floor, hopper).refusal, 8);
        assert_eq!(stop(&floor, hopper).floor, floor);
        assert_eq!(repair(&floor, hopper).refusal, 32);
        assert_eq!(book(&floor, hopper, canister(1, 0, 0)).refusal, 5);
    }
    let changes: [fn(&mut Floor, usize); 5] = [
        |f, t| f.tiles[t].running = 0,
        |f, t| f.tiles[t].distance = 1,
        |f, t| f.tiles[t].distance = 255,
        |f, t| (f.tiles[t].distance, f.tiles[t].next) = (1, 2),
        |f, t| {
            f.tiles[t].count = 1;
            f.canisters[16 * t] = canister(1, 0, 0);
            (f.counters.last, f.counters.booked) = (1, 1);
        },
    ];
    for hopper in [1, 3, 4, 6] {
        for (at, change) in changes.iter().enumerate() {
            let mut broken = floor;
            change(&mut broken, hopper);
            assert!(!well_formed(&broken), "{hopper} {at}");
            assert!(!naive::well_formed(&broken), "{hopper} {at}");
        }
    }
}

#[test]
fn counters_of_several_hoppers() {
    let floor = made(with_hoppers(4, 1, &[0, 2, 3]));
    let with = |booked, delivered| {
        let mut floor = floor;
        floor.counters.last = u32::MAX;
        floor.counters.booked = booked;
        floor.counters.delivered = delivered;
        assert_eq!(well_formed(&floor), naive::well_formed(&floor));
        well_formed(&floor)
    };
    assert!(with(0, [0; 4]));
    assert!(with(6, [1, 2, 3, 0]));
    assert!(!with(5, [1, 2, 3, 0]));
    assert!(!with(7, [1, 2, 3, 1]));
    assert!(!with(6, [1, 2, 2, 1]));
    assert!(with(u32::MAX, [1 << 31, 0, (1 << 31) - 1, 0]));
    // The sum is taken in whole numbers.
    assert!(!with(0, [1 << 31, 1 << 31, 0, 0]));
    assert!(!with(2, [u32::MAX, 2, 1, 0]));
}

#[test]
fn two_hoppers_side_by_side() {
    let floor = booked(&made(with_hoppers(4, 1, &[1, 2])), 0, 1, 70, 0);
    let floor = booked(&floor, 3, 2, 0, 0);
    let answer = turned(&floor);
    assert_eq!(answer.report.grants[..4], [0, 1, 4, 0]);
    assert_eq!(
        (answer.report.at(0), answer.report.at(1)),
        (&[1][..], &[2][..])
    );
    assert_eq!(answer.report.deliveries[2..], [Delivery::ZERO; 2]);
    assert_eq!(distances(&answer.floor), [1, 0, 0, 1]);
    assert_eq!(answer.floor.counters.delivered, [1, 1, 0, 0]);
}

#[test]
fn a_tile_between_two_at_equal_distance() {
    let mut floor = after(&made(with_hoppers(3, 1, &[0, 2])), 1);
    assert_eq!((floor.tiles[1].distance, floor.tiles[1].next), (1, 1));
    let west = booked(&floor, 1, 1, 19, 0);
    assert_eq!(turned(&west).report.at(0), [1]);
    assert_eq!(turned(&west).report.at(1), []);
    // An arrow that faces the other hopper is kept.
    floor.tiles[1].next = 4;
    let east = booked(&floor, 1, 1, 51, 0);
    let answer = turned(&east);
    assert_eq!(answer.report.at(0), []);
    assert_eq!(answer.report.at(1), [1]);
    assert_eq!(answer.floor.counters.delivered, [0, 1, 0, 0]);
}

/// A line whose tiles have room for four in a row, after one round.
fn dense_line(columns: u8, hoppers: &[u8]) -> Floor {
    let settings = Settings {
        length: 25,
        gap: 0,
        ..with_hoppers(columns, 1, hoppers)
    };
    after(&made(settings), 1)
}

#[test]
fn numbers_rise_for_each_hopper_alone() {
    let mut floor = dense_line(4, &[0, 3]);
    for (number, tile, a, b) in [(2, 2, 75, 0), (4, 2, 75, 25), (5, 1, 0, 50), (9, 1, 0, 0)] {
        floor = booked(&floor, tile, number, a, b);
    }
    let answer = turned(&floor);
    assert_eq!(answer.report.deliveries[0].numbers, [5, 9, 0, 0]);
    assert_eq!(answer.report.deliveries[1].numbers, [2, 4, 0, 0]);
    assert_eq!(answer.report.deliveries.map(|at| at.count), [2, 2, 0, 0]);
    assert_eq!(answer.floor.counters.delivered, [2, 2, 0, 0]);
}

#[test]
fn sixteen_in_one_round() {
    let mut floor = dense_line(8, &[0, 3, 4, 7]);
    for (at, (tile, a)) in [(6, 75), (5, 0), (2, 75), (1, 0)].into_iter().enumerate() {
        for place in 0..4 {
            let number = 4 * at as u32 + u32::from(place) + 1;
            floor = booked(&floor, tile, number, a, 25 * place);
        }
    }
    let answer = turned(&floor);
    let expected = [
        [13, 14, 15, 16],
        [9, 10, 11, 12],
        [5, 6, 7, 8],
        [1, 2, 3, 4],
    ];
    assert_eq!(answer.report.deliveries.map(|at| at.numbers), expected);
    assert_eq!(answer.floor.counters.delivered, [4; 4]);
    assert_eq!(answer.report.grants[..8], [4, 0, 0, 1, 4, 0, 0, 1]);
}

#[test]
fn nothing_but_hoppers() {
    for settings in [
        with_hoppers(2, 2, &[0, 1, 2, 3]),
        with_hoppers(2, 1, &[0, 1]),
        with_hoppers(1, 3, &[0, 1, 2]),
    ] {
        let floor = made(settings);
        assert!(distances(&floor).iter().all(|distance| *distance == 0));
        assert_eq!(after(&floor, 3), floor);
        assert_eq!(book(&floor, 0, canister(1, 0, 0)).refusal, 5);
        assert_eq!(oracle::load(&image(&floor)).floor, floor);
    }
}

#[test]
fn cut_off_from_one_and_delivered_at_another() {
    let floor = after(&made(with_hoppers(6, 1, &[0, 5])), 3);
    assert_eq!(distances(&floor), [0, 1, 2, 2, 1, 0]);
    let mut floor = stopped(&booked(&floor, 2, 8, 0, 0), 1);
    // 5 x (1 + 1 x 4) rounds at the most.
    let mut rounds = 0;
    while floor.counters.delivered == [0; 4] {
        floor = after(&floor, 1);
        rounds += 1;
        assert!(rounds <= 25);
    }
    assert_eq!(distances(&floor), [0, 255, 3, 2, 1, 0]);
    assert_eq!(floor.counters.delivered, [0, 1, 0, 0]);
    assert_eq!(floor.members(1), []);
}

/// Steps from a tile to the nearest hopper of a floor where all run.
fn steps(settings: &Settings, tile: usize) -> u8 {
    let rows = usize::from(settings.rows);
    let apart = |hopper: usize| {
        (tile / rows).abs_diff(hopper / rows) + (tile % rows).abs_diff(hopper % rows)
    };
    let least = settings.hopper_tiles().map(apart).min();
    least.unwrap() as u8
}

#[test]
fn distance_means_that_to_the_nearest() {
    let mut rng = Rng::new(30);
    let mut seen = [0; 5];
    for _ in 0..400 {
        let settings = random::settings(&mut rng);
        let tiles = settings.tile_count();
        let floor = after(&made(settings), tiles);
        let nearest: Vec<u8> = (0..tiles).map(|tile| steps(&settings, tile)).collect();
        assert_eq!(distances(&floor), nearest);
        seen[settings.hopper_count()] += 1;
    }
    assert!(seen[1..].iter().all(|count| *count > 30), "{seen:?}");
}
