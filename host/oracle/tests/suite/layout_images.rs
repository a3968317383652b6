//! Images of floors with layouts.

use crate::common::*;
use oracle::random::{self, Rng};
use oracle::{load, Floor, Layout};

/// W 3, hopper 2: ALL runs, NETS lacks tile 0, which is stopped.
fn two() -> Floor {
    kept(&stopped(&kept(&line(3, 2), "ALL"), 0), "NETS")
}

const FIRST: usize = 40;
const RECORD: usize = 20;
const TILES: usize = FIRST + 2 * RECORD;

#[test]
fn bytes_of_two_layouts() {
    let bytes = image(&two());
    let records: Vec<u8> = [
        &[16, 0, 5, 0][..],
        b"ALL\0\0\0\0\0",
        &[7, 0, 0, 0, 0, 0, 0, 0],
        &[16, 0, 5, 0],
        b"NETS\0\0\0\0",
        &[6, 0, 0, 0, 0, 0, 0, 0],
    ]
    .concat();
    assert_eq!(bytes[FIRST..TILES], records);
    assert_eq!(bytes[TILES..TILES + 5], [6, 0, 3, 0, 0]);
    let answer = load(&bytes);
    assert_eq!((answer.refusal, answer.floor), (0, two()));
}

#[test]
fn older_images_have_no_layouts() {
    let mut bare = two();
    bare.layouts = [Layout::ZERO; 8];
    let mut bytes = image(&two());
    bytes.drain(FIRST..TILES);
    assert_eq!(image(&bare), bytes);
    assert_eq!(load(&bytes).floor, bare);
}

fn changed(changes: &[(usize, u8)]) -> u8 {
    changed_refusal(&image(&two()), changes)
}

#[test]
fn within_a_record() {
    let (length, kind, letter) = (FIRST, FIRST + 2, FIRST + 4);
    let all = [(length + 1, 9), (kind, 6), (length, 15), (letter, 1)];
    // The third by itself gives 11, with the others before it 9 or 10.
    assert_eq!(changed(&all), 9);
    assert_eq!(changed(&all[1..]), 10);
    assert_eq!(changed(&all[2..]), 11);
    assert_eq!(changed(&all[3..]), 12);
    for wrong in [0, 1, 8, 15, 17, 20, 24] {
        assert_eq!(changed(&[(length, wrong)]), 11, "{wrong}");
    }
    for wrong in [0, 1, 2, 4, 6, 255] {
        assert_eq!(changed(&[(kind, wrong)]), 10, "{wrong}");
    }
    assert_eq!(changed(&[(kind + 1, 1)]), 10);
    // A tile's record is due as well, but this isn't one.
    assert_eq!(changed(&[(kind, 3)]), 11);
    let bytes = image(&two());
    for end in 1..bytes.len() {
        assert_eq!(load_refusal(&bytes[..end]), 9, "{end}");
    }
}

#[test]
fn what_is_wrong_in_a_layout_is_12() {
    let (letters, set) = (FIRST + 4, FIRST + 12);
    for (at, byte) in [
        (letters, 0),
        (letters, b'a'),
        (letters + 1, 0),
        (letters + 3, b'['),
        (letters + 7, b'A'),
        (letters + 7, 1),
        (letters, b'Z'),
        (set, 3),
        (set, 15),
        (set + 7, 128),
        (set + RECORD, 0),
    ] {
        assert_eq!(changed(&[(at, byte)]), 12, "{at} {byte}");
    }
    assert_eq!(changed(&[(letters, b'M')]), 0);
    assert_eq!(changed(&[(letters + 7, b'A'), (letters + 3, b'A')]), 12);
    assert_eq!(changed(&[(set, 4)]), 0);
    // 12 comes last of all.
    assert_eq!(changed(&[(letters, 0), (TILES + 2, 9)]), 10);
    let mut bytes = image(&two());
    bytes[letters] = 0;
    bytes.push(0);
    assert_eq!(load_refusal(&bytes), 9);
}

/// The image of a W 3 floor with hopper 2 and these records of kind 5.
fn with_records(records: &[(&[u8; 8], u64)]) -> Vec<u8> {
    let bare = image(&line(3, 2));
    let mut bytes = bare[..FIRST].to_vec();
    for (letters, set) in records {
        bytes.extend([16, 0, 5, 0]);
        bytes.extend(*letters);
        bytes.extend(set.to_le_bytes());
    }
    bytes.extend(&bare[FIRST..]);
    bytes
}

const A: &[u8; 8] = b"A\0\0\0\0\0\0\0";
const B: &[u8; 8] = b"B\0\0\0\0\0\0\0";
const NO_NAME: &[u8; 8] = &[0; 8];

#[test]
fn unsorted_repeated_and_zero() {
    let refusal = |records: &[(&[u8; 8], u64)]| load_refusal(&with_records(records));
    assert_eq!(refusal(&[(A, 4), (B, 4)]), 0);
    assert_eq!(refusal(&[(B, 4), (A, 4)]), 12);
    assert_eq!(refusal(&[(A, 4), (A, 4)]), 12);
    assert_eq!(refusal(&[(A, 4), (A, 7)]), 12);
    // Sixteen zero bytes, wherever they stand.
    assert_eq!(refusal(&[(NO_NAME, 0)]), 12);
    assert_eq!(refusal(&[(NO_NAME, 4)]), 12);
    assert_eq!(refusal(&[(A, 4), (NO_NAME, 0)]), 12);
    assert_eq!(refusal(&[(NO_NAME, 0), (A, 4)]), 12);
    assert_eq!(refusal(&[(A, 4), (NO_NAME, 0), (B, 4)]), 12);
    assert_eq!(refusal(&[(NO_NAME, 0); 8]), 12);
}

#[test]
fn a_ninth_record_is_10() {
    let names: Vec<[u8; 8]> = (b'A'..=b'I')
        .map(|letter| [letter, 0, 0, 0, 0, 0, 0, 0])
        .collect();
    let records: Vec<(&[u8; 8], u64)> = names.iter().map(|name| (name, 4)).collect();
    assert_eq!(load_refusal(&with_records(&records[..8])), 0);
    assert_eq!(load_refusal(&with_records(&records)), 10);
    assert_eq!(load_refusal(&with_records(&[(NO_NAME, 0); 9])), 10);
    // The ninth is 10 before its length is looked at, and 9 comes before that.
    let ninth = FIRST + 8 * RECORD;
    let mut bytes = with_records(&records);
    bytes[ninth] = 3;
    assert_eq!(load_refusal(&bytes), 10);
    assert_eq!(load_refusal(&bytes[..ninth + 6]), 9);
}

#[test]
fn none_after_the_first_tile() {
    let bytes = image(&two());
    let record = bytes[FIRST..FIRST + RECORD].to_vec();
    let without = [&bytes[..FIRST], &bytes[FIRST + RECORD..]].concat();
    let tiles = FIRST + RECORD;
    let put = |at: usize| [&without[..at], &record[..], &without[at..]].concat();
    assert_eq!(load_refusal(&put(FIRST)), 0);
    assert_eq!(load_refusal(&put(tiles)), 12);
    for tile in 1..=3 {
        assert_eq!(load_refusal(&put(tiles + 10 * tile)), 10, "{tile}");
    }
    assert_eq!(load_refusal(&put(without.len())), 9);
    assert_eq!(load_refusal(&put(24)), 10);
    assert_eq!(load_refusal(&put(0)), 10);
}

#[test]
fn a_layout_lacks_no_hopper() {
    let floor = kept(&made(with_hoppers(3, 2, &[1, 4])), "A");
    let good = image(&floor);
    let set = 32 + 20 + 12;
    assert_eq!(good[set], 0b11_1111);
    let with = |byte| changed_refusal(&good, &[(set, byte)]);
    assert_eq!(with(0b01_0010), 0);
    assert_eq!(with(0b01_0000), 12);
    assert_eq!(with(0b00_0010), 12);
    assert_eq!(with(0b10_1101), 12);
    assert_eq!(with(0b111_1111), 12);
}

#[test]
fn round_trips() {
    let mut rng = Rng::new(82);
    let mut seen = [0; 9];
    for _ in 0..2_000 {
        let floor = random::floor(&mut rng);
        let bytes = image(&floor);
        assert_eq!(load(&bytes).floor, floor);
        let end = rng.range(1, bytes.len() as u64 - 1) as usize;
        assert_eq!(load_refusal(&bytes[..end]), 9);
        seen[floor.layout_count()] += 1;
    }
    assert!(
        [0, 1, 2, 3, 6, 8].iter().all(|count| seen[*count] > 50),
        "{seen:?}"
    );
}
