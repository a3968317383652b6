//! Every refusal number, what a refusal leaves alone, and the orders.

use crate::common::*;
use oracle::{
    book, fresh, load, only, read, repair, round, settings_refusal, stop, write, Answer, Canister,
    Floor, Report, Settings, Tile, PLACES,
};

/// A refusal that gives the same floor back.
fn refused(floor: &Floor, answer: Answer) -> u8 {
    assert_ne!(answer.refusal, 0);
    assert_eq!(answer.floor, *floor);
    answer.refusal
}

fn fresh_refusal(settings: Settings) -> u8 {
    let answer = fresh(settings);
    if answer.refusal != 0 {
        assert_eq!(answer.floor, Floor::ZERO);
    }
    assert_eq!(answer.refusal, settings_refusal(&settings));
    answer.refusal
}

#[test]
fn refusal_1() {
    for (columns, rows, refusal) in [
        (0, 5, 1),
        (5, 0, 1),
        (1, 1, 1),
        (9, 1, 1),
        (1, 9, 1),
        (255, 255, 1),
        (16, 16, 1),
        (2, 1, 0),
        (1, 2, 0),
        (8, 8, 0),
        (1, 8, 0),
    ] {
        let settings = Settings {
            columns,
            rows,
            hoppers: 1,
            sources: 0,
            ..plain(2, 1, 0)
        };
        assert_eq!(fresh_refusal(settings), refusal, "{columns} {rows}");
    }
}

#[test]
fn refusal_2() {
    let with = |hopper, sources| {
        fresh_refusal(Settings {
            hoppers: only(hopper),
            sources,
            ..plain(3, 2, 0)
        })
    };
    assert_eq!(with(5, 0b01_1111), 0);
    assert_eq!(with(5, 0), 0);
    assert_eq!(with(6, 0), 2);
    assert_eq!(with(255, 0), 2);
    assert_eq!(with(64, 0), 2);
    assert_eq!(with(5, 0b10_0000), 2);
    assert_eq!(with(5, 0b100_0000), 2);
    assert_eq!(with(5, 1 << 63), 2);
    let full = plain(8, 8, 63);
    assert_eq!(fresh_refusal(full), 0);
    let sources = full.sources | 1 << 63;
    assert_eq!(fresh_refusal(Settings { sources, ..full }), 2);
}

#[test]
fn refusal_3() {
    let with = |width, length, gap, travel| {
        fresh_refusal(Settings {
            width,
            length,
            gap,
            travel,
            ..plain(2, 1, 1)
        })
    };
    assert_eq!(with(3, 2, 0, 1), 0);
    assert_eq!(with(2, 1, 0, 1), 3);
    assert_eq!(with(2, 2, 0, 1), 3);
    assert_eq!(with(0, 0, 0, 0), 3);
    assert_eq!(with(1, 0, 0, 0), 3);
    assert_eq!(with(100, 30, 10, 0), 3);
    assert_eq!(with(100, 30, 69, 20), 0);
    assert_eq!(with(100, 30, 70, 20), 3);
    assert_eq!(with(100, 30, 65_535, 20), 3);
    assert_eq!(with(100, 65_535, 65_535, 20), 3);
    assert_eq!(with(60_000, 30_000, 29_999, 29_999), 0);
    assert_eq!(with(60_001, 30_000, 29_999, 29_999), 3);
    assert_eq!(with(60_000, 59_999, 0, 59_998), 0);
    assert_eq!(with(60_000, 12_000, 0, 1), 3);
    assert_eq!(with(60_000, 12_001, 0, 1), 0);
    assert_eq!(with(60_000, 2, 14_998, 1), 0);
    assert_eq!(with(60_000, 2, 14_997, 1), 3);
}

#[test]
fn fresh_order() {
    let bad = Settings {
        columns: 9,
        hoppers: 0,
        travel: 0,
        ..plain(2, 1, 1)
    };
    assert_eq!(fresh_refusal(bad), 1);
    let bad = Settings { columns: 2, ..bad };
    assert_eq!(fresh_refusal(bad), 2);
    let bad = Settings { hoppers: 2, ..bad };
    assert_eq!(fresh_refusal(bad), 3);
    let good = Settings { travel: 1, ..bad };
    assert_eq!(fresh_refusal(good), 0);
}

/// Tile 2 is the hopper, tile 1 no source, tile 0 holds 7 at (0, 0).
fn busy() -> Floor {
    let settings = Settings {
        sources: 0b1001,
        ..plain(4, 1, 2)
    };
    booked(&made(settings), 0, 7, 0, 0)
}

#[test]
fn booking_in_order() {
    let floor = busy();
    let halted = stopped(&floor, 0);
    let try_book = |floor: &Floor, tile, number, a, b| {
        let answer = book(floor, tile, canister(number, a, b));
        refused(floor, answer)
    };
    let bad = malformed();
    assert_eq!(try_book(&bad, 99, 0, 71, 0), 30);
    assert_eq!(try_book(&bad, 0, 9, 0, 0), 30);
    for tile in [4, 63, 64, 256, 1 << 16, u32::MAX] {
        assert_eq!(try_book(&floor, tile, 0, 71, 71), 4);
    }
    assert_eq!(try_book(&floor, 1, 0, 71, 0), 5);
    assert_eq!(try_book(&floor, 2, 8, 0, 0), 5);
    assert_eq!(try_book(&halted, 0, 0, 71, 0), 6);
    assert_eq!(try_book(&halted, 0, 7, 71, 0), 7);
    assert_eq!(try_book(&halted, 0, 7, 0, 71), 7);
    assert_eq!(try_book(&halted, 0, 9, 65_535, 65_535), 7);
    assert_eq!(try_book(&halted, 0, 7, 0, 0), 31);
    assert_eq!(try_book(&floor, 0, 7, 0, 0), 33);
    assert_eq!(try_book(&floor, 0, 1, 50, 50), 33);
    assert_eq!(try_book(&floor, 0, 8, 0, 0), 34);
    assert_eq!(try_book(&floor, 0, 8, 39, 39), 34);
    assert_eq!(book(&floor, 0, canister(8, 0, 40)).refusal, 0);
}

#[test]
fn booking_beyond_the_last_number() {
    let floor = booked(&line(2, 1), 0, u32::MAX, 0, 0);
    let answer = book(&floor, 0, canister(u32::MAX, 70, 70));
    assert_eq!(refused(&floor, answer), 33);
}

#[test]
fn stop_in_order() {
    let floor = busy();
    let bad = malformed();
    assert_eq!(refused(&bad, stop(&bad, 99)), 30);
    assert_eq!(refused(&bad, stop(&bad, 2)), 30);
    for tile in [4, 64, 258, u32::MAX] {
        assert_eq!(refused(&floor, stop(&floor, tile)), 4);
    }
    assert_eq!(refused(&floor, stop(&floor, 2)), 8);
    let floor = stopped(&floor, 0);
    assert_eq!(refused(&floor, stop(&floor, 0)), 31);
}

#[test]
fn repair_in_order() {
    let floor = stopped(&busy(), 0);
    let bad = malformed();
    assert_eq!(refused(&bad, repair(&bad, 99)), 30);
    assert_eq!(refused(&bad, repair(&bad, 0)), 30);
    for tile in [4, 64, 256, u32::MAX] {
        assert_eq!(refused(&floor, repair(&floor, tile)), 4);
    }
    assert_eq!(refused(&floor, repair(&floor, 1)), 32);
    assert_eq!(refused(&floor, repair(&floor, 2)), 32);
    repaired(&floor, 0);
}

#[test]
fn reading_in_order() {
    let check = |floor: &Floor, tile, refusal| {
        let reading = read(floor, tile);
        assert_eq!(reading.refusal, refusal);
        assert_eq!(reading.tile, Tile::ZERO);
        assert_eq!(reading.members, [Canister::ZERO; PLACES]);
    };
    check(&malformed(), 99, 30);
    check(&malformed(), 0, 30);
    check(&busy(), 4, 4);
    check(&busy(), u32::MAX, 4);
}

#[test]
fn reading_gives_all_that_a_tile_has() {
    let floor = after(&busy(), 2);
    for tile in 0..4 {
        let reading = read(&floor, tile as u32);
        assert_eq!(reading.refusal, 0);
        assert_eq!(reading.tile, floor.tiles[tile]);
        assert_eq!(reading.members[..], *floor.places(tile));
    }
    assert_eq!(read(&floor, 0).members[0].number, 7);
}

#[test]
fn round_refused() {
    let floor = malformed();
    let answer = round(&floor);
    assert_eq!(answer.refusal, 30);
    assert_eq!(answer.floor, floor);
    assert_eq!(answer.report, Report::ZERO);
    assert_eq!(round(&Floor::ZERO).refusal, 30);
}

#[test]
fn writing_in_order() {
    let mut buffer = [0xee; 80];
    let answer = write(&malformed(), &mut buffer[..3]);
    assert_eq!((answer.refusal, answer.length), (30, 0));
    let answer = write(&line(2, 1), &mut buffer[..63]);
    assert_eq!((answer.refusal, answer.length), (13, 0));
    let answer = write(&line(2, 1), &mut []);
    assert_eq!((answer.refusal, answer.length), (13, 0));
    assert_eq!(buffer, [0xee; 80]);
    let answer = write(&line(2, 1), &mut buffer[..64]);
    assert_eq!((answer.refusal, answer.length), (0, 64));
}

#[test]
fn refusals_9_to_12_give_the_zero_floor() {
    let good = image(&busy());
    let with = |at: usize, byte: u8| {
        let mut bytes = good.clone();
        bytes[at] = byte;
        let answer = load(&bytes);
        assert_eq!(answer.floor, Floor::ZERO);
        answer.refusal
    };
    assert_eq!(load(&good).floor, busy());
    assert_eq!(with(0, 255), 9);
    assert_eq!(with(2, 2), 10);
    assert_eq!(with(7, 1), 11);
    assert_eq!(with(4, 9), 1);
    assert_eq!(with(6, 9), 2);
    assert_eq!(with(14, 0), 3);
    assert_eq!(with(40 + 5, 2), 12);
}
