//! The bound of a floor. On all floors but those of the last tests M is
//! 70 div 20 + 1 = 4.

use crate::common::*;
use crate::naive;
use oracle::random::{self, Rng};
use oracle::{bound, Bounded, Canister, Counters, Floor, Settings, PLACES};

/// An accepted answer: rounds, K, and how many have no live path.
fn told(rounds: u32, connected: u32, unconnected: u32) -> Bounded {
    Bounded {
        rounds,
        connected,
        unconnected,
        refusal: 0,
    }
}

const REFUSED: Bounded = Bounded {
    rounds: 0,
    connected: 0,
    unconnected: 0,
    refusal: 30,
};

/// A canister on each of the tiles, with the numbers from 1 on.
fn one_on_each(floor: &Floor, tiles: &[u32]) -> Floor {
    let book = |floor: Floor, (number, tile): (u32, &u32)| booked(&floor, *tile, number, 0, 0);
    (1..).zip(tiles).fold(*floor, book)
}

#[test]
fn the_first_trial() {
    let floor = booked(&line(2, 1), 0, 5, 0, 0);
    // 1 x (1 + 1 x 4).
    assert_eq!(bound(&floor), told(5, 1, 0));
    assert_eq!(bound(&after(&floor, 3)), told(5, 1, 0));
    assert_eq!(bound(&after(&floor, 4)), told(1, 0, 0));
}

#[test]
fn without_canisters() {
    assert_eq!(bound(&line(2, 1)), told(1, 0, 0));
    assert_eq!(bound(&made(plain(3, 2, 0))), told(5, 0, 0));
    assert_eq!(bound(&made(plain(8, 8, 27))), told(63, 0, 0));
}

#[test]
fn several_canisters_on_a_tile() {
    let floor = one_on_each(&line(3, 2), &[0, 1]);
    let floor = booked(&floor, 1, 3, 40, 0);
    // 2 x (1 + 3 x 4).
    assert_eq!(bound(&floor), told(26, 3, 0));
}

#[test]
fn a_canister_cut_off_by_a_stop() {
    let whole = one_on_each(&line(4, 0), &[1, 2, 3]);
    // 3 x (1 + 3 x 4).
    assert_eq!(bound(&whole), told(39, 3, 0));
    // The tile that stops, and the one behind it.
    let cut = stopped(&whole, 2);
    assert_eq!(bound(&cut), told(15, 1, 2));
    assert_eq!(bound(&repaired(&cut, 2)), told(39, 3, 0));
}

#[test]
fn a_stopped_tile_with_canisters() {
    let floor = booked(&line(3, 2), 0, 1, 0, 0);
    let floor = booked(&floor, 0, 2, 40, 0);
    // Nothing stands behind the stop.
    assert_eq!(bound(&stopped(&floor, 0)), told(2, 0, 2));
    // Beside the hopper, with one more on the other side of it.
    let floor = one_on_each(&line(3, 1), &[0, 2]);
    assert_eq!(bound(&stopped(&floor, 0)), told(10, 1, 1));
}

#[test]
fn two_hoppers() {
    let floor = one_on_each(&made(with_hoppers(5, 1, &[0, 4])), &[1, 2, 3]);
    // 4 x (1 + 3 x 4).
    assert_eq!(bound(&floor), told(52, 3, 0));
    // The other hopper is left to 2 and 3, or to none.
    let east = stopped(&floor, 1);
    assert_eq!(bound(&east), told(36, 2, 1));
    assert_eq!(bound(&stopped(&east, 3)), told(4, 0, 3));
    // Hoppers alone.
    assert_eq!(bound(&made(with_hoppers(2, 1, &[0, 1]))), told(1, 0, 0));
}

/// Tiles 2 and 3 follow each other, but at the two ends of their columns.
#[test]
fn columns_end_at_the_border() {
    let floor = one_on_each(&made(plain(2, 3, 2)), &[1, 3]);
    // 5 x (1 + 2 x 4).
    assert_eq!(bound(&floor), told(45, 2, 0));
    let cut = stopped(&stopped(&floor, 0), 4);
    assert_eq!(bound(&cut), told(25, 1, 1));
}

/// From tile 2 by 5, 8, 7, 6 and 3 to the hopper 0.
#[test]
fn a_path_around_stops() {
    let floor = one_on_each(&made(plain(3, 3, 0)), &[2]);
    let round_about = stopped(&stopped(&floor, 1), 4);
    assert_eq!(bound(&round_about), told(40, 1, 0));
    assert_eq!(bound(&stopped(&round_about, 7)), told(8, 0, 1));
}

/// A fresh floor has no distances yet; after a stop they are stale.
#[test]
fn distances_and_arrows_do_not_count() {
    let fresh = one_on_each(&line(4, 0), &[3]);
    assert_eq!(bound(&fresh), told(15, 1, 0));
    let settled = one_on_each(&after(&line(4, 0), 4), &[3]);
    let stale = stopped(&settled, 1);
    assert_eq!(stale.tiles[3].distance, 3);
    assert_eq!(bound(&stale), told(3, 0, 1));
}

#[test]
fn a_malformed_floor() {
    assert_eq!(bound(&malformed()), REFUSED);
    assert_eq!(bound(&Floor::ZERO), REFUSED);
    let mut floor = one_on_each(&line(4, 0), &[1, 2, 3]);
    floor.counters.booked += 1;
    assert_eq!(bound(&floor), REFUSED);
}

/// Sixteen canisters on each of 63 tiles that one crosses in 59,999 rounds.
#[test]
fn the_greatest_bound() {
    let mut floor = made(Settings {
        width: 60_000,
        length: 2,
        gap: 14_998,
        travel: 1,
        ..plain(8, 8, 27)
    });
    let places = (0..64 * PLACES).filter(|place| place / PLACES != 27);
    for (place, number) in places.zip(1..) {
        floor.canisters[place] = Canister {
            number,
            a: (place % 4) as u16 * 15_000,
            b: (place / 4 % 4) as u16 * 15_000,
        };
        floor.tiles[place / PLACES].count = 16;
    }
    floor.counters = Counters {
        last: 1_008,
        booked: 1_008,
        ..Counters::ZERO
    };
    assert_eq!(bound(&floor), told(3_810_176_559, 1_008, 0));
    assert_eq!(3_810_176_559, 63 * (1 + 1_008 * 59_999u32));
}

/// Whether a path of running tiles leads from the tile to a hopper, by trying
/// all ways from the tile on.
fn leads(floor: &Floor, tile: usize, seen: &mut [bool; 64]) -> bool {
    if seen[tile] || floor.tiles[tile].running == 0 {
        return false;
    }
    seen[tile] = true;
    let mut sides = (1..=4).filter_map(|code| naive::beside(floor, tile, code));
    floor.settings.is_hopper(tile) || sides.any(|there| leads(floor, there, seen))
}

#[test]
fn random_floors_by_their_paths() {
    let (mut cut, mut several, mut idle) = (0, 0, 0);
    for seed in 0..4_000 {
        let floor = random::floor(&mut Rng::new(seed));
        let (mut connected, mut unconnected) = (0, 0);
        for tile in 0..floor.settings.tile_count() {
            let count = u32::from(floor.tiles[tile].count);
            match leads(&floor, tile, &mut [false; 64]) {
                true => connected += count,
                false => unconnected += count,
            }
        }
        let s = &floor.settings;
        let across = u64::from(s.width - s.length) / u64::from(s.travel) + 1;
        let rounds = (s.tile_count() as u64 - 1) * (1 + u64::from(connected) * across);
        let due = told(rounds.try_into().unwrap(), connected, unconnected);
        assert_eq!(bound(&floor), due, "seed {seed}");
        cut += usize::from(connected > 0 && unconnected > 0);
        several += usize::from(s.hopper_count() > 1 && unconnected > 0);
        idle += usize::from(connected == 0 && unconnected > 0);
    }
    assert!(cut > 400 && several > 400, "{cut} {several}");
    assert!(idle > 100, "{idle}");
}

/// As many rounds as the bound tells deliver K canisters and leave the others.
#[test]
fn the_rounds_deliver_what_is_connected() {
    let mut done = 0;
    for seed in 0..3_000 {
        let first = random::floor(&mut Rng::new(seed));
        let answer = bound(&first);
        if answer.connected == 0 || answer.rounds > 300 {
            continue;
        }
        let (mut floor, mut reported) = (first, 0);
        for _ in 0..answer.rounds {
            let answer = turned(&floor);
            reported += answer.report.delivered().count();
            floor = answer.floor;
        }
        assert_eq!(reported, answer.connected as usize, "seed {seed}");
        let least = first.settings.tile_count() as u32 - 1;
        let rest = told(least, 0, answer.unconnected);
        assert_eq!(bound(&floor), rest, "seed {seed}");
        done += 1;
    }
    assert!(done > 100, "{done}");
}
