//! One short way through every call.

use crate::SETTINGS;
use ceromby::raw::{
    book, book_anywhere, book_list, forget, fresh, keep, load, read, reason, recall, refusal,
    repair, round, stop, tile, write, Booking, Canister, Layout, Name, Settings, LONGEST_LIST,
};

#[test]
fn the_first_trial() {
    let fresh = fresh(SETTINGS);
    assert_eq!(fresh.refusal, 0);
    let canister = Canister {
        number: 5,
        a: 0,
        b: 0,
    };
    let mut floor = book(&fresh.floor, 0, canister).floor;
    for a in [20, 40, 60] {
        floor = round(&floor).floor;
        assert_eq!(read(&floor, 0).members[0], Canister { a, ..canister });
    }
    let last = round(&floor);
    let delivery = last.report.deliveries[0];
    assert_eq!((delivery.count, delivery.numbers), (1, [5, 0, 0, 0]));
    assert_eq!(last.floor.counters.delivered, [1, 0, 0, 0]);
    let stopped = stop(&last.floor, 0);
    assert_eq!((stopped.refusal, repair(&stopped.floor, 0).refusal), (0, 0));
    assert_eq!(stop(&stopped.floor, 0).refusal, refusal::STOPPED);
}

#[test]
fn bookings_without_a_place() {
    let mut floor = fresh(SETTINGS).floor;
    for (number, a, b) in [(1, 0, 0), (2, 40, 0), (5, 0, 40), (9, 40, 40)] {
        let placed = book_anywhere(&floor, 0, number);
        assert_eq!((placed.refusal, placed.place()), (0, Some((a, b))));
        let there = book(&floor, 0, Canister { number, a, b });
        assert_eq!((there.refusal, there.floor), (0, placed.floor));
        floor = placed.floor;
    }
    let halted = stop(&floor, 0).floor;
    let mut malformed = floor;
    malformed.counters.booked = 3;
    for (floor, tile, number, refusal) in [
        (floor, 0, 10, refusal::NO_PLACE),
        (floor, 0, 9, refusal::NUMBER_USED),
        (halted, 0, 9, refusal::STOPPED),
        (halted, 0, 0, refusal::NUMBER_ZERO),
        (floor, 1, 0, refusal::NOT_A_SOURCE),
        (floor, 256, 10, refusal::NO_TILE),
        (malformed, 256, 10, refusal::MALFORMED),
    ] {
        let placed = book_anywhere(&floor, tile, number);
        assert_eq!((placed.refusal, placed.place()), (refusal, None));
        assert_eq!((placed.floor, placed.a, placed.b), (floor, 0, 0));
    }
}

#[test]
fn lists_of_bookings() {
    let floor = fresh(SETTINGS).floor;
    let entry = |tile, number, a, b| Booking {
        tile,
        canister: Canister { number, a, b },
        answer: 200,
    };
    let handed = [
        entry(0, 3, 0, 0),
        entry(0, 4, 39, 39),
        entry(0, 5, 40, 0),
        entry(0, 4, 0, 40),
        entry(1, 6, 0, 0),
        entry(0, 6, 0, 71),
    ];
    let mut list = handed;
    let answer = book_list(&floor, &mut list);
    let due = [
        refusal::ACCEPTED,
        refusal::TOO_CLOSE,
        refusal::ACCEPTED,
        refusal::NUMBER_USED,
        refusal::NOT_A_SOURCE,
        refusal::OUTSIDE,
    ];
    assert_eq!(list.map(|entry| entry.answer), due);
    let after = book(&floor, 0, handed[0].canister).floor;
    let after = book(&after, 0, handed[2].canister).floor;
    assert_eq!((answer.refusal, answer.floor), (0, after));
    for entry in &mut list {
        entry.answer = 200;
    }
    assert_eq!(list, handed);
    assert_eq!(book_list(&floor, &mut []).floor, floor);
    let mut malformed = floor;
    malformed.tiles[0].running = 2;
    let answer = book_list(&malformed, &mut list);
    assert_eq!((answer.refusal, answer.floor), (0, malformed));
    assert_eq!(list.map(|entry| entry.answer), [refusal::MALFORMED; 6]);
}

#[test]
fn lists_that_are_too_long() {
    let floor = fresh(SETTINGS).floor;
    let mut malformed = floor;
    malformed.tiles[0].running = 2;
    let entry = Booking {
        tile: 0,
        canister: Canister {
            number: 3,
            a: 0,
            b: 0,
        },
        answer: 200,
    };
    let mut list = [entry; LONGEST_LIST + 1];
    for floor in [floor, malformed] {
        let answer = book_list(&floor, &mut list);
        assert_eq!(
            (answer.refusal, answer.floor),
            (refusal::LIST_TOO_LONG, floor)
        );
        assert_eq!(list, [entry; LONGEST_LIST + 1]);
    }
    assert_eq!(book_list(&floor, &mut list[1..]).refusal, 0);
    let answers = list.map(|entry| entry.answer);
    assert_eq!((answers[0], answers[1]), (200, 0));
    assert_eq!(answers[2..], [refusal::NUMBER_USED; 63]);
}

#[test]
fn two_hoppers() {
    let settings = Settings {
        columns: 4,
        hoppers: tile(0) | tile(3),
        sources: tile(1) | tile(2),
        ..SETTINGS
    };
    let mut floor = fresh(settings).floor;
    for (on, number, a) in [(2, 5, 60), (1, 9, 10)] {
        let booked = book(&floor, on, Canister { number, a, b: 0 });
        assert_eq!(booked.refusal, 0);
        floor = booked.floor;
    }
    let rounded = round(&floor);
    let numbers = rounded.report.deliveries.map(|at| at.numbers[0]);
    assert_eq!(numbers, [9, 5, 0, 0]);
    assert_eq!(rounded.floor.counters.delivered, [1, 1, 0, 0]);
    assert_eq!(stop(&floor, 3).refusal, refusal::STOP_OF_HOPPER);
    let mut buffer = [0; 96];
    assert_eq!(write(&rounded.floor, &mut buffer), Ok(96));
    assert_eq!(load(&buffer).floor, rounded.floor);
}

#[test]
fn why_a_tile_stands() {
    let settings = Settings {
        columns: 3,
        hoppers: tile(2),
        sources: tile(0) | tile(1),
        ..SETTINGS
    };
    let mut floor = fresh(settings).floor;
    for (on, number, a) in [(0, 1, 0), (1, 2, 5)] {
        floor = book(&floor, on, Canister { number, a, b: 0 }).floor;
    }
    let first = round(&floor);
    let expected = [reason::NO_ARROW, reason::MOVED, reason::EMPTY];
    assert_eq!(first.report.reasons[..3], expected);
    assert_eq!(first.report.missing, [0; 64]);
    let second = round(&first.floor).report;
    let expected = [reason::NO_GAP, reason::MOVED, reason::EMPTY];
    assert_eq!(second.reasons[..3], expected);
    assert_eq!(second.missing[..3], [15, 0, 0]);
    assert_eq!(second.reasons[3..], [0; 61]);
    let halted = stop(&first.floor, 1).floor;
    let report = round(&halted).report;
    let expected = [reason::NO_ARROW, reason::STOPPED, reason::EMPTY];
    assert_eq!(report.reasons[..3], expected);
}

#[test]
fn layouts() {
    let all = keep(&fresh(SETTINGS).floor, "ALL").floor;
    let nets = keep(&stop(&all, 0).floor, "NETS");
    assert_eq!(nets.refusal, 0);
    let layouts = nets.floor.layouts;
    let expected = Layout {
        name: 0x4e45_5453_0000_0000,
        set: tile(1),
    };
    assert_eq!(layouts[1], expected);
    assert_eq!(
        layouts[..2].iter().map(|at| at.set).collect::<Vec<_>>(),
        [3, 2]
    );
    let names = layouts.map(|layout| layout.letters().to_string());
    assert_eq!(names, ["ALL", "NETS", "", "", "", "", "", ""]);
    let recalled = recall(&nets.floor, "ALL");
    assert_eq!((recalled.refusal, recalled.floor.tiles[0].running), (0, 1));
    let again = recall(&recalled.floor, layouts[1].letters());
    assert_eq!((again.refusal, again.floor), (0, nets.floor));
    assert_eq!(recall(&nets.floor, "SOME").refusal, refusal::NAME_NOT_HELD);
    let forgotten = forget(&nets.floor, "ALL");
    assert_eq!(
        (forgotten.refusal, forgotten.floor.layouts[0]),
        (0, expected)
    );
    let mut buffer = [0; 104];
    assert_eq!(write(&nets.floor, &mut buffer), Ok(104));
    assert_eq!(load(&buffer).floor, nets.floor);
}

#[test]
fn names_are_never_cut() {
    let floor = keep(&fresh(SETTINGS).floor, "ABCDEFGH").floor;
    assert_eq!(recall(&floor, "ABCDEFGH").refusal, 0);
    let bad = [
        "",
        "ABCDEFGHI",
        "ABCDEFGHIJKLMNOPQRSTUVWXYZ",
        "ABCDEFGH\0",
        "abcdefgh",
        "A B",
        "Ä",
    ];
    for text in bad {
        assert_eq!(keep(&floor, text).refusal, refusal::BAD_NAME, "{text}");
        assert_eq!(forget(&floor, text).refusal, refusal::BAD_NAME, "{text}");
        assert_eq!(recall(&floor, text).refusal, refusal::BAD_NAME, "{text}");
    }
    let letters = *b"A\0B\0\0\0\0\0";
    assert_eq!(keep(&floor, Name { letters }).refusal, refusal::BAD_NAME);
    let mut malformed = floor;
    malformed.layouts[0].set = 0;
    assert_eq!(recall(&malformed, "ABCDEFGHI").refusal, refusal::MALFORMED);
    assert_eq!(Name::from("NETS").to_string(), "NETS");
    assert_eq!(Name::from("NETSOUTHS").letters, [0; 8]);
}

#[test]
fn sets_of_one_tile() {
    assert_eq!((tile(0), tile(5), tile(63)), (1, 32, 1 << 63));
    assert_eq!((tile(64), tile(255)), (0, 0));
}

#[test]
fn images() {
    let floor = fresh(SETTINGS).floor;
    let mut buffer = [0x5a; 70];
    assert_eq!(write(&floor, &mut buffer), Ok(64));
    assert_eq!(buffer[64..], [0x5a; 6]);
    let loaded = load(&buffer[..64]);
    assert_eq!((loaded.refusal, loaded.floor), (0, floor));
    for length in 1..64 {
        assert_eq!(load(&buffer[..length]).refusal, refusal::IMAGE_ENDS);
    }
}

/// A refusal has no length, so nothing that could be stored as an image.
#[test]
fn refused_writes() {
    let floor = fresh(SETTINGS).floor;
    let mut buffer = [0x5a; 64];
    for size in 0..64 {
        assert_eq!(
            write(&floor, &mut buffer[..size]),
            Err(refusal::SHORT_BUFFER)
        );
    }
    let mut malformed = floor;
    malformed.tiles[0].running = 2;
    assert_eq!(write(&malformed, &mut buffer), Err(refusal::MALFORMED));
    assert_eq!(buffer, [0x5a; 64]);
}

#[test]
fn a_blank_controller() {
    let settings = Settings {
        columns: 4,
        rows: 4,
        hoppers: tile(10),
        sources: tile(4),
        width: 1_000,
        length: 250,
        gap: 50,
        travel: 200,
    };
    let blank = load(&[]);
    assert_eq!((blank.refusal, blank.floor), (0, fresh(settings).floor));
    let mut buffer = [0; 204];
    assert_eq!(write(&blank.floor, &mut buffer), Ok(204));
    assert_eq!(load(&buffer).floor, blank.floor);
}
