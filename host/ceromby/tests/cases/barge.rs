//! Four floors, one allowance ([13]): every call on each floor, the allowance, and
//! the other three floors.

use ceromby::raw::{self, refusal};
use ceromby::{Barge, Floor, Place, Refusal, FLOORS, MAX_ALLOWANCE};

use crate::{canister, two, two_with};

/// The barge on which every floor holds canister 5, which the next round delivers.
fn near(allowance: u32) -> Result<Barge, Refusal> {
    let floor = two_with(5, 70, 0)?;
    Barge::new(
        [floor.clone(), floor.clone(), floor.clone(), floor],
        allowance,
    )
}

/// Floors 1 and 2 hold canister 9 at (0, 0) on tile 0, floor 3 canister 7 at
/// (35, 35), which leaves no place; floor 0 is empty. Three are aboard.
fn some(allowance: u32) -> Result<Barge, Refusal> {
    let (one, blocked) = (two_with(9, 0, 0)?, two_with(7, 35, 35)?);
    Barge::new([two(), one.clone(), one, blocked], allowance)
}

/// The same with tile 0 of a floor stopped.
fn idle(floor: u32) -> Result<Barge, Refusal> {
    let mut barge = some(1)?;
    barge.stop(floor, 0)?;
    Ok(barge)
}

/// On each floor of a barge: an accepted call leaves that floor, and tells, what
/// it does on the lone one, and the other three are as they were. Of the barge
/// that the library gives `Barge` takes the named floor alone, so this is looked
/// at as C gets it.
fn that_floor_alone<T: PartialEq + std::fmt::Debug>(
    before: impl Fn(u32) -> Result<Barge, Refusal>,
    call: impl Fn(&raw::Barge, u32) -> (u8, raw::Barge, T),
    on_a_lone_floor: impl Fn(&mut Floor) -> Result<T, Refusal>,
) -> Result<(), Refusal> {
    for at in 0..FLOORS as u32 {
        let was = before(at)?;
        let mut lone = was.floor(at)?.clone();
        let due = on_a_lone_floor(&mut lone)?;
        let (refusal, after, told) = call(was.as_raw(), at);
        assert_eq!((refusal, told), (0, due));
        assert_ne!(was.floor(at)?, &lone);
        for floor in 0..FLOORS as u32 {
            let due = match floor == at {
                true => &lone,
                false => was.floor(floor)?,
            };
            let place = floor as usize;
            assert_eq!(after.floors[place], *due.as_raw(), "{floor} after {at}");
        }
        assert_eq!(after.allowance, was.allowance());
    }
    Ok(())
}

fn without_more(answer: &raw::BargeAnswer) -> (u8, raw::Barge, ()) {
    (answer.refusal, answer.barge, ())
}

#[test]
fn a_booking_on_each_floor_changes_that_floor_alone() -> Result<(), Refusal> {
    let tenth = canister(10, 0, 40);
    that_floor_alone(
        |_| near(5),
        |barge, floor| without_more(&raw::barge::book(barge, floor, 0, tenth)),
        |floor| floor.book(0, tenth),
    )
}

#[test]
fn a_booking_without_a_place_with_the_place_told() -> Result<(), Refusal> {
    that_floor_alone(
        |_| near(5),
        |barge, floor| {
            let placed = raw::barge::book_anywhere(barge, floor, 0, 10);
            let (a, b) = (placed.a, placed.b);
            (placed.refusal, placed.barge, Place { a, b })
        },
        |floor| floor.book_anywhere(0, 10),
    )?;
    let placed = some(9)?.book_anywhere(1, 0, 10)?;
    assert_eq!(placed, Place { a: 40, b: 0 });
    let none = raw::barge::book_anywhere(some(9)?.as_raw(), 3, 0, 10);
    assert_eq!((none.refusal, none.a, none.b), (refusal::NO_PLACE, 0, 0));
    assert_eq!(none.barge, *some(9)?.as_raw());
    Ok(())
}

#[test]
fn a_stop_and_a_second_one_is_31() -> Result<(), Refusal> {
    that_floor_alone(
        |_| some(1),
        |barge, floor| without_more(&raw::barge::stop(barge, floor, 0)),
        |floor| floor.stop(0),
    )?;
    assert_eq!(idle(2)?.stop(2, 0), Err(Refusal::Stopped));
    idle(2)?.stop(1, 0)
}

#[test]
fn a_repair_and_of_another_floors_tile_32() -> Result<(), Refusal> {
    that_floor_alone(
        idle,
        |barge, floor| without_more(&raw::barge::repair(barge, floor, 0)),
        |floor| floor.repair(0),
    )?;
    assert_eq!(idle(2)?.repair(1, 0), Err(Refusal::Running));
    Ok(())
}

#[test]
fn a_round_with_what_that_floor_delivers() -> Result<(), Refusal> {
    that_floor_alone(
        |_| near(1),
        |barge, floor| {
            let rounded = raw::barge::round(barge, floor);
            (rounded.refusal, rounded.barge, rounded.report)
        },
        |floor| Ok(*floor.round()?.as_raw()),
    )?;
    let report = near(1)?.round(1)?;
    assert_eq!(report.delivered().collect::<Vec<_>>(), [5]);
    let none = raw::barge::round(near(1)?.as_raw(), 4);
    assert_eq!(none.refusal, refusal::NO_FLOOR);
    assert_eq!(none.report, raw::Report::default());
    Ok(())
}

#[test]
fn below_the_allowance_accepted_at_it_50_on_the_empty_floor_too() -> Result<(), Refusal> {
    let canister = canister(10, 0, 40);
    some(4)?.book(0, 0, canister)?;
    some(4)?.book_anywhere(1, 0, 10)?;
    let mut at = some(3)?;
    assert_eq!(at.book(0, 0, canister), Err(Refusal::Overloaded));
    assert_eq!(at.book(2, 0, canister), Err(Refusal::Overloaded));
    assert_eq!(at.book_anywhere(0, 0, 10), Err(Refusal::Overloaded));
    assert_eq!(at.book_anywhere(1, 0, 10), Err(Refusal::Overloaded));
    Ok(())
}

#[test]
fn above_it_50_and_the_others_are_as_on_a_lone_floor() -> Result<(), Refusal> {
    let mut above = some(2)?;
    let booked = above.book(0, 0, canister(10, 0, 40));
    assert_eq!(booked, Err(Refusal::Overloaded));
    assert_eq!(above.book_anywhere(1, 0, 10), Err(Refusal::Overloaded));
    assert_eq!(above.repair(0, 0), Err(Refusal::Running));
    above.stop(0, 0)?;
    above.round(1)?;
    Ok(())
}

#[test]
fn before_50_come_4_5_6_33_34_and_40() -> Result<(), Refusal> {
    let mut at = some(3)?;
    for (tile, canister, refusal) in [
        (2, canister(10, 0, 40), Refusal::NoTile),
        (1, canister(10, 0, 40), Refusal::NotASource),
        (0, canister(0, 0, 40), Refusal::NumberZero),
        (0, canister(9, 0, 40), Refusal::NumberUsed),
        (0, canister(10, 39, 39), Refusal::TooClose),
    ] {
        assert_eq!(at.book(1, tile, canister), Err(refusal));
    }
    assert_eq!(at.book_anywhere(3, 0, 10), Err(Refusal::NoPlace));
    Ok(())
}

#[test]
fn after_a_delivery_a_booking_is_accepted_the_next_is_50() -> Result<(), Refusal> {
    let mut full = near(4)?;
    let tenth = canister(10, 0, 40);
    assert_eq!(full.book(1, 0, tenth), Err(Refusal::Overloaded));
    full.round(2)?;
    full.book(1, 0, tenth)?;
    let next = full.book(1, 0, canister(11, 40, 40));
    assert_eq!(next, Err(Refusal::Overloaded));
    assert_eq!(full.book_anywhere(0, 0, 11), Err(Refusal::Overloaded));
    Ok(())
}

/// A floor's number from 4 on is not cut.
#[test]
fn no_such_floor_is_49_and_30_comes_before_it() -> Result<(), Refusal> {
    let mut barge = some(9)?;
    let booked = barge.book(4, 0, canister(10, 0, 40));
    assert_eq!(booked, Err(Refusal::NoFloor));
    assert_eq!(barge.book_anywhere(256, 0, 10), Err(Refusal::NoFloor));
    assert_eq!(barge.stop(65_536, 0), Err(Refusal::NoFloor));
    assert_eq!(barge.repair(4_294_967_292, 0), Err(Refusal::NoFloor));
    assert_eq!(barge.round(u32::MAX), Err(Refusal::NoFloor));
    assert_refused(&with_allowance(0)?, 4);
    Ok(())
}

fn with_allowance(allowance: u32) -> Result<raw::Barge, Refusal> {
    Ok(raw::Barge {
        allowance,
        ..*some(1)?.as_raw()
    })
}

/// 30 from every call that names this floor: zeros, and the same barge.
#[track_caller]
fn assert_refused(barge: &raw::Barge, floor: u32) {
    use raw::barge::{book, book_anywhere, repair, round, stop};
    let booked = book(barge, floor, 0, canister(10, 0, 40));
    let stopped = stop(barge, floor, 0);
    let repaired = repair(barge, floor, 0);
    for answer in [booked, stopped, repaired] {
        assert_eq!(answer.refusal, refusal::MALFORMED);
        assert_eq!(answer.barge, *barge);
    }
    let placed = book_anywhere(barge, floor, 0, 10);
    assert_eq!(placed.refusal, refusal::MALFORMED);
    assert_eq!((placed.a, placed.b), (0, 0));
    assert_eq!(placed.barge, *barge);
    let rounded = round(barge, floor);
    assert_eq!(rounded.refusal, refusal::MALFORMED);
    assert_eq!(rounded.report, raw::Report::default());
    assert_eq!(rounded.barge, *barge);
}

#[test]
fn an_allowance_of_0_and_of_4033_is_30_of_1_and_of_4032_is_not() -> Result<(), Refusal> {
    for allowance in [0, MAX_ALLOWANCE + 1, u32::MAX] {
        assert_refused(&with_allowance(allowance)?, 0);
    }
    for allowance in [1, MAX_ALLOWANCE] {
        let rounded = raw::barge::round(&with_allowance(allowance)?, 0);
        assert_eq!(rounded.refusal, refusal::ACCEPTED);
    }
    Ok(())
}

/// A floor of zeros is malformed.
#[test]
fn one_malformed_floor_is_30_whichever_it_is_and_whichever_is_named() -> Result<(), Refusal> {
    let none = raw::fresh(crate::settings(9, 1, 2, 1)).floor;
    for at in 0..FLOORS {
        let mut barge = *some(9)?.as_raw();
        barge.floors[at] = none;
        for named in [0, 1, 2, 3, 4] {
            assert_refused(&barge, named);
        }
    }
    Ok(())
}
