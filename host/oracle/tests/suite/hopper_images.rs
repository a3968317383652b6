//! Images of floors with several hoppers.

use crate::common::*;
use oracle::random::{self, Rng};
use oracle::{load, write, Floor, Settings};

/// W 3, hoppers 0 and 2; tile 1 holds 9, and 3 and 4 were delivered.
fn two() -> Floor {
    let mut floor = booked(&made(with_hoppers(3, 1, &[0, 2])), 1, 9, 70, 5);
    floor.counters.booked = 8;
    floor.counters.delivered = [3, 4, 0, 0];
    floor
}

#[test]
fn bytes_of_two_hoppers() {
    let expected: Vec<u8> = [
        &[28, 0, 1, 0, 3, 1, 0, 0, 100, 0, 30, 0, 10, 0, 20, 0][..],
        &[2, 0, 0, 0, 0, 0, 0, 0, 5, 0, 0, 0, 0, 0, 0, 0],
        &[16, 0, 2, 0, 9, 0, 0, 0, 8, 0, 0, 0, 3, 0, 0, 0, 4, 0, 0, 0],
        &[6, 0, 3, 0, 0, 1, 0, 0, 0, 0],
        &[14, 0, 3, 0, 1, 1, 255, 0, 0, 1, 9, 0, 0, 0, 70, 0, 5, 0],
        &[6, 0, 3, 0, 2, 1, 0, 0, 0, 0],
        &[0, 0, 4, 0],
    ]
    .concat();
    assert_eq!(image(&two()), expected);
    assert_eq!(load(&expected).floor, two());
}

#[test]
fn the_hopper_byte_is_the_lowest() {
    for (hoppers, length) in [(&[5][..], 20), (&[5, 9], 28), (&[4, 6, 10], 28)] {
        let bytes = image(&made(with_hoppers(4, 4, hoppers)));
        assert_eq!((bytes[0], bytes[6]), (length, hoppers[0]));
        let counters = 4 + usize::from(length);
        assert_eq!(usize::from(bytes[counters]), 8 + 4 * hoppers.len());
    }
}

#[test]
fn round_trips_and_prefixes() {
    let mut rng = Rng::new(31);
    let mut seen = [0; 5];
    while seen[1..].iter().any(|count| *count < 40) {
        let floor = random::floor(&mut rng);
        let bytes = image(&floor);
        let answer = load(&bytes);
        assert_eq!((answer.refusal, answer.floor), (0, floor));
        let end = rng.range(1, bytes.len() as u64 - 1) as usize;
        assert_eq!(load_refusal(&bytes[..end]), 9);
        assert_eq!(load_refusal(&[&bytes[..], &[0]].concat()), 9);
        seen[floor.settings.hopper_count()] += 1;
    }
    let bytes = image(&two());
    for end in 1..bytes.len() {
        assert_eq!(load_refusal(&bytes[..end]), 9);
    }
}

/// Every tile but the hoppers with sixteen canisters.
fn crowded(hoppers: &[u8]) -> Floor {
    let settings = Settings {
        length: 25,
        gap: 0,
        ..with_hoppers(8, 8, hoppers)
    };
    let mut floor = made(settings);
    for tile in (0..64).filter(|tile| !settings.is_hopper(*tile)) {
        for place in 0..16 {
            let number = (16 * tile + place + 1) as u32;
            let (a, b) = (place as u16 / 4 * 25, place as u16 % 4 * 25);
            floor = booked(&floor, tile as u32, number, a, b);
        }
    }
    floor
}

#[test]
fn the_longest_has_one_hopper() {
    let full = [
        (&[9][..], 8_748),
        (&[9, 10], 8_632),
        (&[0, 9, 63], 8_508),
        (&[0, 7, 56, 63], 8_384),
    ];
    for (hoppers, length) in full {
        let floor = crowded(hoppers);
        assert_eq!(image(&floor).len(), length);
        let mut short = vec![0; length - 1];
        assert_eq!(write(&floor, &mut short).refusal, 13);
    }
}

const KIND: usize = 2;
const COLUMNS: usize = 4;
const HOPPER: usize = 6;
const FIXED: usize = 7;
const TRAVEL: usize = 14;
const SET: usize = 24;
const COUNTERS: usize = 32;

fn changed(changes: &[(usize, u8)]) -> u8 {
    changed_refusal(&image(&two()), changes)
}

#[test]
fn order_within_a_long_first_record() {
    let all = [
        (0, 255),
        (KIND, 2),
        (FIXED, 1),
        (HOPPER, 1),
        (COLUMNS, 9),
        (SET + 7, 128),
        (TRAVEL, 30),
    ];
    let due = [9, 10, 11, 11, 1, 2, 3, 0];
    for (from, refusal) in due.into_iter().enumerate() {
        assert_eq!(changed(&all[from..]), refusal, "{from}");
    }
    assert_eq!(changed(&[(KIND + 1, 1)]), 10);
    for wrong in [0, 8, 19, 21, 24, 27, 29, 36] {
        assert_eq!(changed(&[(0, wrong)]), 11, "{wrong}");
        assert_eq!(changed(&[(0, wrong), (COLUMNS, 0)]), 11, "{wrong}");
    }
    // Twenty bytes are a whole record; what follows is none.
    assert_eq!(changed(&[(0, 20)]), 10);
    assert_eq!(changed(&[(0, 20), (COLUMNS, 0)]), 1);
}

#[test]
fn a_long_record_needs_two_to_four_tiles() {
    let with = |set, hopper| changed(&[(SET, set), (HOPPER, hopper)]);
    assert_eq!(with(0b101, 0), 0);
    // One tile, at either length of the next record, and none.
    assert_eq!(with(0b001, 0), 2);
    assert_eq!(with(0b100, 2), 2);
    assert_eq!(changed(&[(SET, 1), (COUNTERS, 12)]), 2);
    for byte in [0, 1, 2, 3, 63, 64, 255] {
        assert_eq!(with(0, byte), 2, "{byte}");
        assert_eq!(changed(&[(SET, 0), (HOPPER, byte), (COLUMNS, 0)]), 1);
    }
    // A hopper off the floor, a fill bit for the second one.
    assert_eq!(with(0b1001, 0), 2);
    assert_eq!(changed(&[(SET + 7, 128)]), 2);
    assert_eq!(changed(&[(16, 0b110)]), 2);
    assert_eq!(changed(&[(16, 0)]), 0);
    // The lowest, on the floor or not.
    assert_eq!(with(0b101, 2), 11);
    assert_eq!(with(0b1000, 0), 11);
    assert_eq!(with(0b1000, 3), 2);
    assert_eq!(with(0b001, 1), 11);
}

#[test]
fn a_lowest_hopper_off_the_floor() {
    let mut bytes = image(&made(with_hoppers(4, 4, &[7, 9])));
    bytes[SET..SET + 8].copy_from_slice(&set(&[40]).to_le_bytes());
    assert_eq!((bytes[HOPPER], load_refusal(&bytes)), (7, 11));
    bytes[HOPPER] = 40;
    assert_eq!(load_refusal(&bytes), 2);
}

#[test]
fn five_tiles_are_2() {
    let mut bytes = image(&made(with_hoppers(3, 2, &[0, 2, 3, 5])));
    assert_eq!(bytes[SET], 0b101101);
    assert_eq!(load_refusal(&bytes), 0);
    bytes[16] = 0;
    bytes[SET] |= 0b10;
    assert_eq!(load_refusal(&bytes), 2);
    bytes[TRAVEL] = 0;
    assert_eq!(load_refusal(&bytes), 2);
}

#[test]
fn a_short_record_with_a_hopper_off_the_floor() {
    let good = image(&line(3, 2));
    let with = |hopper, columns| changed_refusal(&good, &[(HOPPER, hopper), (COLUMNS, columns)]);
    for hopper in [3, 63, 64, 130, 255] {
        assert_eq!(with(hopper, 3), 2, "{hopper}");
        assert_eq!(with(hopper, 9), 1, "{hopper}");
    }
}

#[test]
fn the_second_record_follows_the_first() {
    for hoppers in 1..=4u8 {
        let tiles: Vec<u8> = (0..hoppers).collect();
        let floor = made(with_hoppers(3, 2, &tiles));
        let good = image(&floor);
        let start = 4 + usize::from(good[0]);
        let head = start + 4;
        for length in (0..40).chain([255]) {
            let mut bytes = good[..head].to_vec();
            bytes[start] = length;
            bytes.resize(head + usize::from(length), 0);
            bytes.extend(&good[head + 8 + 4 * tiles.len()..]);
            let due = if length == 8 + 4 * hoppers { 0 } else { 11 };
            assert_eq!(load_refusal(&bytes), due, "{hoppers} {length}");
            bytes[start + 2] = 3;
            assert_eq!(load_refusal(&bytes), 10, "{hoppers} {length}");
        }
    }
}

#[test]
fn wrong_counters_are_12() {
    let delivered = COUNTERS + 12;
    assert_eq!(changed(&[(delivered, 4), (delivered + 4, 3)]), 0);
    assert_eq!(changed(&[(delivered, 4)]), 12);
    assert_eq!(changed(&[(delivered + 4, 5)]), 12);
    // Sums that are right in 32 bits only.
    let wrapped = [(delivered + 3, 128), (delivered + 7, 128)];
    assert_eq!(changed(&wrapped), 12);
    // A hopper that stands, or that holds something.
    let hopper = COUNTERS + 20 + 10 + 18;
    assert_eq!(changed(&[(hopper + 5, 0)]), 12);
    assert_eq!(changed(&[(hopper + 6, 1)]), 12);
}
