//! A blank controller (request [9]): zero bytes load the standard floor.

use crate::common::*;
use oracle::random::{self, Rng};
use oracle::{book, load, stop, write, Floor, LONGEST_IMAGE, STANDARD};

/// What zero bytes load.
fn standard() -> Floor {
    let answer = load(&[]);
    assert_eq!(answer.refusal, 0);
    answer.floor
}

#[test]
fn zero_bytes_load_the_standard_floor() {
    assert_eq!(standard(), made(STANDARD));
    // W 4, H 4, hopper 10; U 1,000, l 250, r 50, v 200; fill tile 4.
    let mut expected = vec![20, 0, 1, 0, 4, 4, 10, 0];
    expected.extend([232, 3, 250, 0, 50, 0, 200, 0]);
    expected.extend([16, 0, 0, 0, 0, 0, 0, 0]);
    expected.extend([12, 0, 2, 0, 0, 0, 0, 0, 0, 0, 0, 0, 0, 0, 0, 0]);
    for tile in 0..16 {
        let distance = if tile == 10 { 0 } else { 255 };
        expected.extend([6, 0, 3, 0, tile, 1, distance, 0, 0, 0]);
    }
    expected.extend([0, 0, 4, 0]);
    assert_eq!(image(&standard()), expected);
}

#[test]
fn one_to_three_bytes_are_9() {
    let floor = image(&standard());
    for length in 1..=3 {
        assert_eq!(load_refusal(&floor[..length]), 9);
        for byte in 0..=255 {
            assert_eq!(load_refusal(&vec![byte; length]), 9, "{length} of {byte}");
        }
    }
    // Four bytes are a record, of another kind than 1.
    assert_eq!(load_refusal(&[0; 4]), 10);
    assert_eq!(load_refusal(&[0, 0, 4, 0]), 10);
    assert_eq!(load_refusal(&[0, 0, 1, 0]), 11);
}

#[test]
fn its_hopper_and_its_fill_tile() {
    let floor = standard();
    let refusals = (0..17).map(|tile| book(&floor, tile, canister(1, 0, 0)).refusal);
    let expected = (0..17).map(|tile| match tile {
        4 => 0,
        16 => 4,
        _ => 5,
    });
    assert!(refusals.eq(expected));
    let refusals = (0..16).map(|tile| stop(&floor, tile).refusal);
    assert!(refusals.eq((0..16).map(|tile| if tile == 10 { 8 } else { 0 })));
}

#[test]
fn its_measures() {
    let floor = standard();
    let refusal = |floor: &Floor, number, a, b| book(floor, 4, canister(number, a, b)).refusal;
    // U - l is 750, d is 300.
    assert_eq!(refusal(&floor, 1, 750, 750), 0);
    assert_eq!(refusal(&floor, 1, 751, 0), 7);
    assert_eq!(refusal(&floor, 1, 0, 751), 7);
    let one = booked(&floor, 4, 1, 0, 0);
    assert_eq!(refusal(&one, 2, 299, 299), 34);
    assert_eq!(refusal(&one, 2, 300, 0), 0);
    assert_eq!(refusal(&one, 2, 0, 300), 0);
}

/// From tile 4 (column 1, row 0) to tile 10 (column 2, row 2) in three steps.
#[test]
fn a_canister_goes_its_way() {
    let settled = after(&standard(), 6);
    let way = [4, 5, 6, 10].map(|tile| settled.tiles[tile]);
    assert_eq!(way.map(|tile| tile.distance), [3, 2, 1, 0]);
    assert_eq!(way.map(|tile| tile.next), [3, 3, 4, 0]);
    let mut floor = booked(&settled, 4, 7, 0, 0);
    let mut places = Vec::new();
    let mut delivered = Vec::new();
    while delivered.is_empty() && places.len() < 100 {
        let answer = turned(&floor);
        floor = answer.floor;
        delivered.extend(answer.report.delivered());
        let held = (0..16).find(|tile| floor.tiles[*tile].count > 0);
        places.extend(held.map(|tile| (tile, floor.members(tile)[0])));
    }
    let expected = [
        (4, [(0, 200), (0, 400), (0, 600)]),
        (5, [(0, 0), (0, 200), (0, 400)]),
    ];
    let first = expected.map(|(tile, stands)| stands.map(|(a, b)| (tile, canister(7, a, b))));
    assert_eq!(places[..6], first.concat());
    assert_eq!(delivered, [7]);
    assert_eq!(floor.counters, counters(7, 1, 1));
}

#[test]
fn the_one_accepted_image_that_does_not_come_back() {
    let floor = standard();
    let bytes = image(&floor);
    assert_eq!(bytes.len(), 24 + 16 + 16 * 10 + 4);
    let again = load(&bytes);
    assert_eq!((again.refusal, again.floor), (0, floor));
    for size in 0..bytes.len() {
        let answer = write(&floor, &mut vec![0; size]);
        assert_eq!((answer.refusal, answer.length), (13, 0));
    }
}

#[test]
fn writing_never_yields_an_empty_image() {
    let mut rng = Rng::new(91);
    let mut buffer = vec![0; LONGEST_IMAGE];
    for _ in 0..1_000 {
        let answer = write(&random::floor(&mut rng), &mut buffer);
        assert_eq!(answer.refusal, 0);
        assert!(answer.length >= 64);
    }
    let refused = write(&malformed(), &mut buffer);
    assert_eq!((refused.refusal, refused.length), (30, 0));
}
