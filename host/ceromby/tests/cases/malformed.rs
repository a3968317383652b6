//! Floors that aren't well formed: every call that takes a floor answers 30 and
//! gives the same floor, with zeros in a report, a reading and a bound, the same
//! bytes in a buffer, the same plan at a release, and 30 in every entry of a
//! list of bookings. A list of 65 is 42, and no entry is written.

use ceromby::raw::{self, refusal, Booking, Entry, Floor, Layout, Plan, Report, Side};
use ceromby::{tile, Canister, Refusal, LONGEST_LIST};

use crate::{canister, fresh, rounds};

/// What makes a floor malformed, and its name.
type Damage = (&'static str, fn(&mut Floor));

/// Each damage, alone on this floor.
fn each_is_refused(sound: &Floor, damages: &[Damage]) {
    for (what, damage) in damages {
        let mut floor = *sound;
        damage(&mut floor);
        println!("{what}");
        assert_ne!(floor, *sound);
        assert_refused(&floor);
    }
}

/// 30 from every call, and nothing else changed.
#[track_caller]
fn assert_refused(floor: &Floor) {
    let answers = [
        raw::book(floor, 1, canister(900, 0, 0)),
        raw::stop(floor, 1),
        raw::repair(floor, 1),
        raw::keep(floor, "A"),
        raw::forget(floor, "A"),
        raw::recall(floor, "A"),
    ];
    for answer in answers {
        assert_eq!(answer.refusal, refusal::MALFORMED);
        assert_eq!(answer.floor, *floor);
    }
    round_is_refused(floor);
    place_is_refused(floor);
    reading_is_refused(floor);
    buffers_are_untouched(floor);
    release_is_refused(floor);
    lists_are_answered(floor);
}

#[track_caller]
fn round_is_refused(floor: &Floor) {
    let rounded = raw::round(floor);
    assert_eq!(rounded.refusal, refusal::MALFORMED);
    assert_eq!(rounded.floor, *floor);
    assert_eq!(rounded.report, Report::default());
}

#[track_caller]
fn place_is_refused(floor: &Floor) {
    let placed = raw::book_anywhere(floor, 1, 900);
    assert_eq!(placed.refusal, refusal::MALFORMED);
    assert_eq!(placed.floor, *floor);
    assert_eq!((placed.a, placed.b), (0, 0));
}

#[track_caller]
fn reading_is_refused(floor: &Floor) {
    let nothing = raw::Tile {
        running: 0,
        distance: 0,
        next: Side::NONE,
        token: Side::NONE,
        count: 0,
    };
    let reading = raw::read(floor, 0);
    assert_eq!(reading.refusal, refusal::MALFORMED);
    assert_eq!(reading.tile, nothing);
    assert_eq!(reading.members, [Canister::new(0, 0, 0); 16]);
    let bounded = raw::bound(floor);
    assert_eq!(bounded.refusal, refusal::MALFORMED);
    assert_eq!(bounded.rounds, 0);
    assert_eq!((bounded.connected, bounded.unconnected), (0, 0));
}

/// An image, and a page in a buffer that is too short as well.
#[track_caller]
fn buffers_are_untouched(floor: &Floor) {
    let mut bytes = [7; 64];
    let written = raw::as_in_c::write(floor, &mut bytes);
    assert_eq!((written.refusal, written.length), (refusal::MALFORMED, 0));
    assert_eq!(bytes, [7; 64]);
    let mut bytes = [7; 8];
    let paged = raw::as_in_c::page(floor, &mut bytes);
    assert_eq!((paged.refusal, paged.length), (refusal::MALFORMED, 0));
    assert_eq!(bytes, [7; 8]);
}

#[track_caller]
fn release_is_refused(floor: &Floor) {
    let plan = Plan::of(&[Entry::new(1, 1)]);
    let released = raw::plan::release(&plan, floor, 1);
    assert_eq!(released.refusal, refusal::MALFORMED);
    assert_eq!((released.number, released.a, released.b), (0, 0, 0));
    assert_eq!(released.floor, *floor);
    assert_eq!(released.plan, plan);
}

#[track_caller]
fn lists_are_answered(floor: &Floor) {
    let entry = |answer| Booking {
        tile: 1,
        canister: canister(900, 0, 0),
        answer,
    };
    for (length, own, each) in [
        (5, refusal::ACCEPTED, refusal::MALFORMED),
        (LONGEST_LIST, refusal::ACCEPTED, refusal::MALFORMED),
        (LONGEST_LIST + 1, refusal::LIST_TOO_LONG, 99),
    ] {
        // one entry more than is handed in
        let mut list = vec![entry(99); length + 1];
        let answered = raw::book_list(floor, &mut list[..length]);
        assert_eq!((answered.refusal, answered.floor), (own, *floor));
        assert_eq!(list[..length], vec![entry(each); length]);
        assert_eq!(list[length], entry(99));
    }
}

/// W 3, H 2, hopper 5, canisters 3 and 4 on tile 0, 7 on tile 1, three rounds gone.
fn one_hopper() -> Result<ceromby::Floor, Refusal> {
    let mut floor = fresh(3, 2, tile(5), !tile(5) & 0b11_1111);
    floor.book(0, canister(3, 0, 0))?;
    floor.book(0, canister(4, 60, 0))?;
    floor.book(1, canister(7, 0, 30))?;
    rounds(&mut floor, 3)?;
    Ok(floor)
}

#[test]
fn the_floor_before_its_damages_is_accepted() -> Result<(), Refusal> {
    one_hopper()?.book(1, canister(900, 70, 70))?;
    one_hopper()?.stop(1)?;
    one_hopper()?.round()?;
    one_hopper()?.read(1)?;
    Ok(())
}

#[test]
fn tiles() -> Result<(), Refusal> {
    let damages: [Damage; 10] = [
        ("a count of 255", |f| f.tiles[0].count = 255),
        ("an arrow of 200", |f| f.tiles[0].next.code = 200),
        ("a turn of 200", |f| f.tiles[0].token.code = 200),
        ("running 7", |f| f.tiles[0].running = 7),
        ("a distance of C", |f| f.tiles[0].distance = 6),
        ("a tile beyond C not zero", |f| f.tiles[60].running = 1),
        ("a turn that faces no tile", |f| {
            f.tiles[0].token = Side::WEST
        }),
        ("a stopped hopper", |f| f.tiles[5].running = 0),
        ("a hopper without distance 0", |f| f.tiles[5].distance = 255),
        ("a stopped tile with its distance", |f| {
            f.tiles[2].running = 0
        }),
    ];
    each_is_refused(one_hopper()?.as_raw(), &damages);
    Ok(())
}

#[test]
fn canisters_and_counters() -> Result<(), Refusal> {
    let damages: [Damage; 10] = [
        ("canisters out of order", |f| f.canisters[0].number = 5),
        ("number 0", |f| f.canisters[0].number = 0),
        ("a number on two tiles", |f| f.canisters[16].number = 3),
        ("a place beyond U - l", |f| f.canisters[16].a = 71),
        ("two canisters too near", |f| f.canisters[1].a = 39),
        ("an unused place not zero", |f| f.canisters[2].b = 1),
        ("a canister beyond C", |f| f.canisters[1023].number = 1),
        ("booked off by one", |f| f.counters.booked = 4),
        ("delivered off by one", |f| f.counters.delivered[0] = 1),
        ("last below a number", |f| f.counters.last = 6),
    ];
    each_is_refused(one_hopper()?.as_raw(), &damages);
    Ok(())
}

#[test]
fn settings() -> Result<(), Refusal> {
    let damages: [Damage; 3] = [
        ("a side of 200 tiles", |f| f.settings.rows = 200),
        ("the hopper in the fill set", |f| f.settings.sources = 63),
        ("v not below l", |f| f.settings.travel = 30),
    ];
    each_is_refused(one_hopper()?.as_raw(), &damages);
    Ok(())
}

#[test]
fn the_all_zero_floor_of_a_refused_fresh() {
    let refused = raw::fresh(crate::settings(9, 1, tile(1), tile(0)));
    assert_eq!(refused.refusal, refusal::GRID);
    assert_refused(&refused.floor);
}

/// W 3, H 2, hoppers 0, 1 and 5, canisters 3 and 4 on tile 2, the only fill tile;
/// two rounds gone, in which hopper 0 took 3.
fn three_hoppers() -> Result<ceromby::Floor, Refusal> {
    let mut floor = fresh(3, 2, tile(0) | tile(1) | tile(5), tile(2));
    floor.book(2, canister(3, 10, 0))?;
    floor.book(2, canister(4, 60, 40))?;
    rounds(&mut floor, 2)?;
    Ok(floor)
}

#[test]
fn the_floor_with_three_hoppers_is_accepted() -> Result<(), Refusal> {
    let mut floor = three_hoppers()?;
    assert_eq!(floor.counters().delivered, [1, 0, 0, 0]);
    assert_eq!(floor.read(2)?.canisters(), [canister(4, 20, 40)]);
    assert_eq!(floor.stop(1), Err(Refusal::StopOfHopper));
    floor.book(2, canister(900, 70, 0))?;
    three_hoppers()?.stop(2)?;
    three_hoppers()?.round()?;
    Ok(())
}

/// Tiles 3 and 4 as hoppers too: each has distance 0 and no arrow.
fn five_hoppers(floor: &mut Floor) {
    floor.settings.hoppers |= tile(3) | tile(4);
    for at in [3, 4] {
        floor.tiles[at].distance = 0;
        floor.tiles[at].next = Side::NONE;
    }
}

/// The three as ordinary tiles without a distance, and nothing delivered.
fn no_hopper(floor: &mut Floor) {
    floor.settings.hoppers = 0;
    for at in [0, 1, 5] {
        floor.tiles[at].distance = 255;
    }
    floor.counters.booked = 1;
    floor.counters.delivered[0] = 0;
}

/// The fourth place of the counters, with the total still right.
fn counter_of_no_hopper(floor: &mut Floor) {
    floor.counters.booked = 3;
    floor.counters.delivered[3] = 1;
}

/// Canister 1 on tile 1, with the total still right.
fn canister_on_a_hopper(floor: &mut Floor) {
    floor.counters.booked = 3;
    floor.tiles[1].count = 1;
    floor.canisters[16].number = 1;
}

#[test]
fn several_hoppers() -> Result<(), Refusal> {
    let damages: [Damage; 9] = [
        ("five hoppers", five_hoppers),
        ("no hopper", no_hopper),
        ("a hopper off the floor", |f| f.settings.hoppers |= tile(60)),
        ("the second hopper in the fill set", |f| {
            f.settings.sources = tile(1) | tile(2);
        }),
        ("a counter of no hopper not zero", counter_of_no_hopper),
        ("the second hopper stopped", |f| f.tiles[1].running = 0),
        ("the second hopper with distance 1", |f| {
            f.tiles[1].distance = 1
        }),
        ("the second hopper with a canister", canister_on_a_hopper),
        ("the second hopper with an arrow", |f| {
            f.tiles[1].next = Side::SOUTH
        }),
    ];
    each_is_refused(three_hoppers()?.as_raw(), &damages);
    Ok(())
}

/// All tiles of the floor.
const ALL: u64 = 0b11_1111;

/// Under A every tile of the floor runs, under B all but tile 4.
fn two_layouts() -> Result<ceromby::Floor, Refusal> {
    let mut floor = three_hoppers()?;
    floor.keep("A")?;
    floor.stop(4)?;
    floor.keep("B")?;
    Ok(floor)
}

#[test]
fn the_floor_with_two_layouts_is_accepted() -> Result<(), Refusal> {
    let mut floor = two_layouts()?;
    let sets: Vec<_> = floor.layouts().map(|layout| layout.set).collect();
    assert_eq!(sets, [ALL, ALL & !tile(4)]);
    assert_eq!(floor.recall("C"), Err(Refusal::NameNotHeld));
    floor.keep("C")?;
    two_layouts()?.forget("A")?;
    two_layouts()?.recall("A")
}

/// A third layout that has all tiles of the floor.
fn third(floor: &mut Floor, letters: &[u8; 8]) {
    floor.layouts[2] = Layout {
        name: u64::from_be_bytes(*letters),
        set: ALL,
    };
}

#[test]
fn layouts() -> Result<(), Refusal> {
    let damages: [Damage; 9] = [
        ("layouts not by rising name", |f| f.layouts.swap(0, 1)),
        ("a name twice", |f| third(f, b"B\0\0\0\0\0\0\0")),
        ("a free place before a layout", |f| {
            f.layouts[0] = Layout { name: 0, set: 0 };
        }),
        ("a small letter in a name", |f| third(f, b"a\0\0\0\0\0\0\0")),
        ("a letter after a zero in a name", |f| {
            third(f, b"C\0B\0\0\0\0\0")
        }),
        ("a set without a name", |f| third(f, &[0; 8])),
        ("a layout with the second hopper stopped", |f| {
            f.layouts[1].set &= !tile(1);
        }),
        ("a layout with a bit for no tile", |f| {
            f.layouts[1].set |= tile(6)
        }),
        ("a layout of no tile", |f| f.layouts[1].set = 0),
    ];
    each_is_refused(two_layouts()?.as_raw(), &damages);
    Ok(())
}
