//! Images: bytes, round trips, faults and their order.

use crate::common::*;
use oracle::random::{self, Rng};
use oracle::{load, write, Floor, Settings, LONGEST_IMAGE, NONE};

const COUNTERS: usize = 24;
const TILES: usize = 40;

#[test]
fn bytes_of_a_small_image() {
    let floor = booked(&line(2, 1), 0, 0x0102_0304, 70, 5);
    let expected: Vec<u8> = [
        &[20, 0, 1, 0, 2, 1, 1, 0, 100, 0, 30, 0, 10, 0, 20, 0][..],
        &[1, 0, 0, 0, 0, 0, 0, 0],
        &[12, 0, 2, 0, 4, 3, 2, 1, 1, 0, 0, 0, 0, 0, 0, 0],
        &[14, 0, 3, 0, 0, 1, 255, 0, 0, 1, 4, 3, 2, 1, 70, 0, 5, 0],
        &[6, 0, 3, 0, 1, 1, 0, 0, 0, 0],
        &[0, 0, 4, 0],
    ]
    .concat();
    assert_eq!(image(&floor), expected);
    assert_eq!(load(&expected).floor, floor);
}

#[test]
fn round_trips() {
    let mut rng = Rng::new(1);
    for _ in 0..2_000 {
        let floor = random::floor(&mut rng);
        let bytes = image(&floor);
        let answer = load(&bytes);
        assert_eq!(answer.refusal, 0);
        assert_eq!(answer.floor, floor);
        assert_eq!(image(&answer.floor), bytes);
    }
}

#[test]
fn writing_touches_nothing_else() {
    let mut rng = Rng::new(2);
    for _ in 0..300 {
        let floor = random::floor(&mut rng);
        let length = image(&floor).len();
        let mut buffer = vec![0xa5; length + rng.below(50) as usize];
        let answer = write(&floor, &mut buffer);
        assert_eq!((answer.refusal, answer.length as usize), (0, length));
        assert!(buffer[length..].iter().all(|byte| *byte == 0xa5));
        let mut short = vec![0xa5; rng.below(length as u64) as usize];
        assert_eq!(write(&floor, &mut short).refusal, 13);
        assert!(short.iter().all(|byte| *byte == 0xa5));
    }
}

#[test]
fn every_proper_prefix_but_the_empty_one_is_9() {
    let mut rng = Rng::new(3);
    let mut floors = vec![line(2, 1), crowded()];
    floors.extend((0..40).map(|_| random::floor(&mut rng)));
    for floor in floors {
        let bytes = image(&floor);
        for end in 1..bytes.len() {
            assert_eq!(load_refusal(&bytes[..end]), 9);
        }
        assert_eq!(load_refusal(&bytes), 0);
    }
}

#[test]
fn bytes_after_the_end_are_9() {
    let mut bytes = image(&line(2, 1));
    bytes.push(0);
    assert_eq!(load_refusal(&bytes), 9);
    let doubled = [image(&line(2, 1)), image(&line(2, 1))].concat();
    assert_eq!(load_refusal(&doubled), 9);
    bytes.resize(100_000, 0);
    assert_eq!(load_refusal(&bytes), 9);
}

/// A full floor: sixteen canisters on each of 63 tiles, by bookings.
fn crowded() -> Floor {
    let settings = Settings {
        width: 100,
        length: 25,
        gap: 0,
        travel: 24,
        ..plain(8, 8, 20)
    };
    let mut floor = made(settings);
    let mut number = 0;
    for tile in (0..64).filter(|tile| *tile != 20) {
        for place in 0..16 {
            number += 1;
            floor = booked(&floor, tile, number, place / 4 * 25, place % 4 * 25);
        }
    }
    floor
}

#[test]
fn the_longest_image() {
    let full = crowded();
    assert_eq!(full.counters.booked, 1_008);
    let names = ["A", "B", "C", "D", "E", "F", "G", "H"];
    let layouts = names.iter().fold(full, |floor, name| kept(&floor, name));
    for (floor, length) in [(full, 8_748), (layouts, 8_908)] {
        let mut buffer = [0xee; LONGEST_IMAGE + 4];
        assert_eq!(write(&floor, &mut buffer[..length - 1]).refusal, 13);
        assert_eq!(buffer, [0xee; LONGEST_IMAGE + 4]);
        let answer = write(&floor, &mut buffer);
        assert_eq!((answer.refusal, answer.length as usize), (0, length));
        assert!(buffer[length..].iter().all(|byte| *byte == 0xee));
        assert_eq!(load(&buffer[..length]).floor, floor);
        assert_eq!(load(&buffer).refusal, 9);
    }
    assert_eq!(LONGEST_IMAGE, 8_908);
}

/// Tile 0 of W 3, hopper 2, with canisters 1 and 2.
fn sample() -> Vec<u8> {
    let floor = booked(&line(3, 2), 0, 1, 0, 0);
    image(&booked(&floor, 0, 2, 0, 40))
}

fn changed(changes: &[(usize, u8)]) -> u8 {
    changed_refusal(&sample(), changes)
}

#[test]
fn order_within_the_first_record() {
    let (body, kind, columns, hopper, fixed, travel) = (0, 2, 4, 6, 7, 14);
    let all = [
        (kind, 2),
        (fixed, 1),
        (columns, 9),
        (hopper, 3),
        (travel, 30),
    ];
    let longer = [&all[..], &[(body, 255)]].concat();
    assert_eq!(changed(&longer), 9);
    assert_eq!(changed(&all), 10);
    assert_eq!(changed(&[(kind + 1, 1)]), 10);
    assert_eq!(changed(&all[1..]), 11);
    assert_eq!(changed(&all[2..]), 1);
    assert_eq!(changed(&all[3..]), 2);
    assert_eq!(changed(&all[4..]), 3);
    assert_eq!(changed(&[]), 0);
    assert_eq!(changed(&[(body, 19)]), 11);
    assert_eq!(changed(&[(body, 21)]), 11);
    assert_eq!(changed(&[(body, 0)]), 11);
    assert_eq!(changed(&[(body, 19), (columns, 0)]), 11);
    assert_eq!(changed(&[(body, 0), (kind, 4)]), 10);
}

#[test]
fn an_earlier_record_decides() {
    let columns = 4;
    assert_eq!(changed(&[(columns, 9), (COUNTERS + 2, 7)]), 1);
    assert_eq!(changed(&[(COUNTERS, 11), (TILES + 2, 7)]), 11);
    assert_eq!(changed(&[(COUNTERS + 2, 3), (TILES, 5)]), 10);
    assert_eq!(load_refusal(&sample()[..24]), 9);
    let mut bytes = sample();
    bytes[columns] = 0;
    assert_eq!(load_refusal(&bytes[..24]), 1);
    assert_eq!(load_refusal(&bytes[..23]), 9);
}

#[test]
fn faults_in_the_counters_record() {
    assert_eq!(changed(&[(COUNTERS, 13)]), 11);
    assert_eq!(changed(&[(COUNTERS, 13), (COUNTERS + 2, 1)]), 10);
    assert_eq!(changed(&[(COUNTERS + 1, 255), (COUNTERS + 2, 1)]), 9);
}

#[test]
fn faults_in_a_tile_record() {
    let (body, kind, tile, count) = (TILES, TILES + 2, TILES + 4, TILES + 9);
    assert_eq!(changed(&[(kind, 4), (tile, 1), (body + 1, 9)]), 9);
    assert_eq!(changed(&[(kind, 4), (tile, 1)]), 10);
    assert_eq!(changed(&[(tile, 1)]), 11);
    for wrong in [0, 1, 3, 16, 17, 255] {
        assert_eq!(changed(&[(count, wrong)]), 11, "{wrong}");
    }
    for wrong in [0, 5, 6, 14, 21, 23] {
        assert_eq!(changed(&[(body, wrong)]), 11, "{wrong}");
    }
    assert_eq!(changed(&[(TILES + 26 + 4, 0)]), 11);
}

#[test]
fn seventeen_canisters_are_11() {
    let bytes = sample();
    let mut long = bytes[..TILES].to_vec();
    long.extend([6 + 8 * 17, 0, 3, 0, 0, 1, NONE, 0, 0, 17]);
    long.extend([0; 8 * 17]);
    long.extend(&bytes[TILES + 26..]);
    assert_eq!(load_refusal(&long), 11);
    // Sixteen are a sound record, but their numbers aren't.
    let mut long = bytes[..TILES].to_vec();
    long.extend([6 + 8 * 16, 0, 3, 0, 0, 1, NONE, 0, 0, 16]);
    long.extend([0; 8 * 16]);
    long.extend(&bytes[TILES + 26..]);
    assert_eq!(load_refusal(&long), 12);
}

#[test]
fn faults_in_the_end_record() {
    let at = sample().len() - 4;
    assert_eq!(changed(&[(at, 1)]), 9);
    assert_eq!(changed(&[(at + 2, 3)]), 10);
    let mut bytes = sample();
    bytes[at] = 1;
    bytes.push(0);
    assert_eq!(load_refusal(&bytes), 11);
    bytes[at + 2] = 5;
    assert_eq!(load_refusal(&bytes), 10);
    let extra = [
        &sample()[..at],
        &[6, 0, 3, 0, 3, 1, 255, 0, 0, 0][..],
        &[0, 0, 4, 0],
    ]
    .concat();
    assert_eq!(load_refusal(&extra), 10);
}

#[test]
fn a_value_without_meaning_is_12_and_comes_last() {
    let running = (TILES + 5, 2);
    assert_eq!(changed(&[running]), 12);
    let last_tile = TILES + 26 + 10;
    assert_eq!(changed(&[running, (last_tile + 4, 9)]), 11);
    assert_eq!(changed(&[running, (last_tile + 2, 9)]), 10);
    let mut bytes = sample();
    bytes[running.0] = running.1;
    assert_eq!(load_refusal(&bytes[..bytes.len() - 1]), 9);
    assert_eq!(load_refusal(&bytes[..bytes.len() - 4]), 9);
    bytes.push(0);
    assert_eq!(load_refusal(&bytes), 9);
    // Sides without meaning, a distance of the wrong kind, wrong counters.
    assert_eq!(changed(&[(TILES + 7, 5)]), 12);
    assert_eq!(changed(&[(TILES + 8, 255)]), 12);
    assert_eq!(changed(&[(TILES + 8, 1)]), 12);
    assert_eq!(changed(&[(TILES + 8, 4)]), 0);
    assert_eq!(changed(&[(TILES + 6, 1)]), 12);
    assert_eq!(changed(&[(TILES + 6, 1), (TILES + 7, 4)]), 0);
    assert_eq!(changed(&[(COUNTERS + 4, 1)]), 12);
    assert_eq!(changed(&[(COUNTERS + 8, 3)]), 12);
    assert_eq!(changed(&[(TILES + 10, 2)]), 12);
    assert_eq!(changed(&[(TILES + 10, 0)]), 12);
    assert_eq!(changed(&[(TILES + 14, 71)]), 12);
}

#[test]
fn changed_images_never_panic() {
    let mut rng = Rng::new(4);
    let mut accepted = 0;
    for _ in 0..20_000 {
        let mut bytes = image(&random::floor(&mut rng));
        for _ in 0..rng.range(1, 3) {
            // The front bytes decide most, so they are hit more often.
            let reach = rng.pick(&[bytes.len(), bytes.len().min(100)]);
            let at = rng.below(reach as u64) as usize;
            bytes[at] = rng.pick(&[0, 1, 2, 3, 4, 5, 16, 17, 64, 255, bytes[at] ^ 1]);
        }
        if rng.chance(1, 8) {
            bytes.truncate(rng.range(1, bytes.len() as u64) as usize);
        }
        let answer = load(&bytes);
        assert!([0, 1, 2, 3, 9, 10, 11, 12].contains(&answer.refusal));
        if answer.refusal == 0 {
            accepted += 1;
            assert_eq!(image(&answer.floor), bytes);
        } else {
            assert_eq!(answer.floor, Floor::ZERO);
        }
    }
    assert!(accepted > 500, "{accepted}");
}

#[test]
fn random_bytes_never_panic() {
    let mut rng = Rng::new(5);
    for _ in 0..20_000 {
        let length = rng.range(1, 199);
        let bytes: Vec<u8> = (0..length).map(|_| rng.draw() as u8).collect();
        assert_ne!(load_refusal(&bytes), 0);
    }
}
