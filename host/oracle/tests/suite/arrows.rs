//! The arrow keeps its side among the nearest neighbours.

use crate::common::*;
use crate::lists::perform;
use crate::naive::beside;
use oracle::random::{self, Rng};
use oracle::{Floor, NONE};

const WEST: u8 = 1;
const NORTH: u8 = 3;
const EAST: u8 = 4;

/// W 2, H 2, hopper 1: tile 2 has tiles 0 in the west and 3 in the north at
/// distance 1, and its arrow is north since tile 0 was stopped for a while.
fn kept_north() -> Floor {
    let settled = after(&made(plain(2, 2, 1)), 3);
    assert_eq!(settled.tiles[2].next, WEST);
    let cut = after(&stopped(&settled, 0), 1);
    assert_eq!(cut.tiles[2].next, NORTH);
    let floor = after(&repaired(&cut, 0), 2);
    assert_eq!((floor.tiles[0].distance, floor.tiles[3].distance), (1, 1));
    floor
}

#[test]
fn a_tie_keeps_the_arrow() {
    let floor = kept_north();
    assert_eq!(floor.tiles[2].next, NORTH);
    assert_eq!(after(&floor, 5).tiles[2].next, NORTH);
}

#[test]
fn stop_and_repair_keep_no_arrow() {
    let floor = repaired(&stopped(&kept_north(), 2), 2);
    assert_eq!(after(&floor, 1).tiles[2].next, WEST);
}

#[test]
fn an_arrow_to_a_farther_neighbour_is_dropped() {
    let mut floor = kept_north();
    floor.tiles[3].distance = 2;
    assert_eq!(after(&floor, 1).tiles[2].next, WEST);
    floor.tiles[0].distance = 2;
    assert_eq!(after(&floor, 1).tiles[2].next, NORTH);
    floor.tiles[0].distance = 3;
    assert_eq!(after(&floor, 1).tiles[2].next, NORTH);
}

#[test]
fn old_distances_decide() {
    // Tile 0 comes near in this very round, tile 3 leaves in it.
    let mut floor = kept_north();
    floor.tiles[0].distance = 3;
    assert_eq!(after(&floor, 1).tiles[0].distance, 1);
    assert_eq!(after(&floor, 1).tiles[2].next, NORTH);
    let mut floor = kept_north();
    floor.tiles[2].next = WEST;
    floor.tiles[3].distance = 2;
    floor.tiles[0].distance = 2;
    assert_eq!(after(&floor, 1).tiles[3].distance, 1);
    assert_eq!(after(&floor, 1).tiles[2].next, WEST);
}

#[test]
fn a_distance_cut_to_none_drops_the_arrow() {
    let mut floor = stopped(&after(&line(4, 0), 3), 1);
    assert_eq!(floor.tiles[3].distance, 3);
    floor.tiles[2].next = EAST;
    let tile = after(&floor, 1).tiles[2];
    assert_eq!((tile.distance, tile.next), (NONE, 0));
}

#[test]
fn the_trials_settle_as_before() {
    // From a fresh floor there is no arrow to keep.
    assert_eq!(after(&made(plain(2, 2, 3)), 3).tiles[0].next, NORTH);
}

/// The sides of the neighbours nearest by the distances of this floor.
fn nearest(floor: &Floor, tile: usize) -> Vec<u8> {
    let distance = |code: &u8| beside(floor, tile, *code).map(|there| floor.tiles[there].distance);
    let least = (1..=4).filter_map(|code| distance(&code)).min();
    let near = |code: &u8| distance(code) == least && least != Some(NONE);
    (1..=4).filter(near).collect()
}

#[test]
fn every_arrow_of_random_lists() {
    let (mut kept, mut settled) = (0, 0);
    for seed in 0..400 {
        let mut rng = Rng::new(seed);
        let mut floor = random::floor(&mut rng);
        for _ in 0..rng.below(60) {
            if rng.chance(1, 4) {
                floor = perform(random::call(&mut rng, &floor), &floor).1;
                continue;
            }
            let next = turned(&floor).floor;
            for tile in 0..floor.settings.tile_count() {
                let arrow = next.tiles[tile].next;
                let near = nearest(&floor, tile);
                if arrow != 0 {
                    let present = floor.tiles[tile].next;
                    let stays = near.contains(&present);
                    let due = if stays { present } else { near[0] };
                    assert_eq!(arrow, due, "seed {seed} tile {tile}");
                    kept += usize::from(arrow != near[0]);
                }
            }
            settled += usize::from(stays_settled(&floor, &next));
            floor = next;
        }
    }
    assert!(kept > 500 && settled > 500, "{kept} {settled}");
}

/// Once a round changes no distance, the next one changes no arrow.
fn stays_settled(before: &Floor, after: &Floor) -> bool {
    let ways = |floor: &Floor| floor.tiles.map(|tile| (tile.distance, tile.next));
    let distances = |floor: &Floor| floor.tiles.map(|tile| tile.distance);
    let settled = distances(before) == distances(after);
    assert!(!settled || ways(&turned(after).floor) == ways(after));
    settled
}
