//! Short ways to make floors and to work on them.

use oracle::{
    book, forget, fresh, keep, load, name, recall, repair, round, stop, well_formed, write,
    Canister, Counters, Floor, RoundAnswer, Settings, LONGEST_IMAGE,
};

/// The settings of the trials: every tile but the hopper a fill tile.
pub fn plain(columns: u8, rows: u8, hopper: u8) -> Settings {
    with_hoppers(columns, rows, &[hopper])
}

/// The same with several hoppers.
pub fn with_hoppers(columns: u8, rows: u8, hoppers: &[u8]) -> Settings {
    let tiles = u32::from(columns) * u32::from(rows);
    let hoppers = set(hoppers);
    Settings {
        columns,
        rows,
        hoppers,
        sources: (u64::MAX >> (64 - tiles)) & !hoppers,
        width: 100,
        length: 30,
        gap: 10,
        travel: 20,
    }
}

/// A set of tiles.
pub fn set(tiles: &[u8]) -> u64 {
    tiles.iter().map(|tile| 1 << tile).sum()
}

/// Counters of a floor with one hopper.
pub fn counters(last: u32, booked: u32, delivered: u32) -> Counters {
    Counters {
        last,
        booked,
        delivered: [delivered, 0, 0, 0],
    }
}

pub fn made(settings: Settings) -> Floor {
    let answer = fresh(settings);
    assert_eq!(answer.refusal, 0);
    assert!(well_formed(&answer.floor));
    answer.floor
}

pub fn line(columns: u8, hopper: u8) -> Floor {
    made(plain(columns, 1, hopper))
}

pub fn canister(number: u32, a: u16, b: u16) -> Canister {
    Canister { number, a, b }
}

pub fn booked(floor: &Floor, tile: u32, number: u32, a: u16, b: u16) -> Floor {
    let answer = book(floor, tile, canister(number, a, b));
    assert_eq!(answer.refusal, 0);
    assert!(well_formed(&answer.floor));
    answer.floor
}

pub fn stopped(floor: &Floor, tile: u32) -> Floor {
    let answer = stop(floor, tile);
    assert_eq!(answer.refusal, 0);
    assert!(well_formed(&answer.floor));
    answer.floor
}

pub fn repaired(floor: &Floor, tile: u32) -> Floor {
    let answer = repair(floor, tile);
    assert_eq!(answer.refusal, 0);
    assert!(well_formed(&answer.floor));
    answer.floor
}

pub fn kept(floor: &Floor, text: &str) -> Floor {
    let answer = keep(floor, name(text));
    assert_eq!(answer.refusal, 0);
    assert!(well_formed(&answer.floor));
    answer.floor
}

pub fn forgotten(floor: &Floor, text: &str) -> Floor {
    let answer = forget(floor, name(text));
    assert_eq!(answer.refusal, 0);
    assert!(well_formed(&answer.floor));
    answer.floor
}

pub fn recalled(floor: &Floor, text: &str) -> Floor {
    let answer = recall(floor, name(text));
    assert_eq!(answer.refusal, 0);
    assert!(well_formed(&answer.floor));
    answer.floor
}

pub fn turned(floor: &Floor) -> RoundAnswer {
    let answer = round(floor);
    assert_eq!(answer.refusal, 0);
    assert!(well_formed(&answer.floor));
    answer
}

/// The floor after some rounds.
pub fn after(floor: &Floor, rounds: usize) -> Floor {
    (0..rounds).fold(*floor, |floor, _| turned(&floor).floor)
}

pub fn image(floor: &Floor) -> Vec<u8> {
    let mut buffer = vec![0; LONGEST_IMAGE];
    let answer = write(floor, &mut buffer);
    assert_eq!(answer.refusal, 0);
    buffer.truncate(answer.length as usize);
    buffer
}

/// The refusal of a load, with the zero floor seen to.
pub fn load_refusal(bytes: &[u8]) -> u8 {
    let answer = load(bytes);
    if answer.refusal == 0 {
        assert!(well_formed(&answer.floor));
    } else {
        assert_eq!(answer.floor, Floor::ZERO);
    }
    answer.refusal
}

/// The same with some bytes changed.
pub fn changed_refusal(bytes: &[u8], changes: &[(usize, u8)]) -> u8 {
    let mut bytes = bytes.to_vec();
    for (at, byte) in changes {
        bytes[*at] = *byte;
    }
    load_refusal(&bytes)
}

/// A malformed floor that breaks nothing but its first clause on the hopper.
pub fn malformed() -> Floor {
    let mut floor = line(3, 2);
    floor.tiles[2].distance = 1;
    assert!(!well_formed(&floor));
    floor
}
