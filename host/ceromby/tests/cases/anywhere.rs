//! Bookings without a place ([1]).

use ceromby::raw::{self, refusal};
use ceromby::{tile, Floor, Place, Refusal, Settings};

use crate::{canister, settings, two, two_with};

/// 40 on tile 0, with (0, 0) and the same floor.
#[track_caller]
fn assert_no_place(floor: &Floor, number: u32) {
    let placed = raw::book_anywhere(floor.as_raw(), 0, number);
    assert_eq!(placed.refusal, refusal::NO_PLACE);
    assert_eq!((placed.a, placed.b), (0, 0));
    assert_eq!(placed.floor, *floor.as_raw());
}

/// The lowest b, then the lowest a.
#[test]
fn on_an_empty_tile_0_0_then_40_0_then_0_40() -> Result<(), Refusal> {
    let mut floor = two();
    assert_eq!(floor.book_anywhere(0, 5)?, Place { a: 0, b: 0 });
    assert_eq!(floor.book_anywhere(0, 6)?, Place { a: 40, b: 0 });
    assert_eq!(floor.book_anywhere(0, 7)?, Place { a: 0, b: 40 });
    Ok(())
}

#[test]
fn beside_31_5_0_45_then_40_45_then_40() -> Result<(), Refusal> {
    let mut floor = two_with(4, 31, 5)?;
    assert_eq!(floor.book_anywhere(0, 5)?, Place { a: 0, b: 45 });
    assert_eq!(floor.book_anywhere(0, 6)?, Place { a: 40, b: 45 });
    assert_no_place(&floor, 7);
    Ok(())
}

/// The place found holds the canister, and the tile counts it.
#[test]
fn a_place_at_u_minus_l_and_none_beside_35_35() -> Result<(), Refusal> {
    let mut floor = two_with(4, 35, 30)?;
    assert_eq!(floor.book_anywhere(0, 5)?, Place { a: 0, b: 70 });
    let due = [canister(4, 35, 30), canister(5, 0, 70)];
    assert_eq!(floor.read(0)?.canisters(), due);
    let again = floor.book(0, canister(6, 0, 70));
    assert_eq!(again, Err(Refusal::TooClose));
    assert_no_place(&two_with(4, 35, 35)?, 5);
    Ok(())
}

/// Each where the next holds too.
#[test]
fn refused_by_4_5_6_31_33_40_in_this_order() -> Result<(), Refusal> {
    let mut floor = two_with(4, 35, 35)?;
    let mut stopped = floor.clone();
    stopped.stop(0)?;
    assert_eq!(stopped.book_anywhere(2, 0), Err(Refusal::NoTile));
    assert_eq!(stopped.book_anywhere(1, 0), Err(Refusal::NotASource));
    assert_eq!(stopped.book_anywhere(0, 0), Err(Refusal::NumberZero));
    assert_eq!(stopped.book_anywhere(0, 4), Err(Refusal::Stopped));
    assert_eq!(floor.book_anywhere(0, 4), Err(Refusal::NumberUsed));
    assert_eq!(floor.book_anywhere(0, 5), Err(Refusal::NoPlace));
    Ok(())
}

#[test]
fn l_21_r_0_the_sixteenth_at_63_63_the_next_is_40() -> Result<(), Refusal> {
    let mut floor = Floor::fresh(Settings {
        length: 21,
        gap: 0,
        ..settings(2, 1, tile(1), tile(0))
    })?;
    for number in 1..16 {
        floor.book_anywhere(0, number)?;
    }
    assert_eq!(floor.book_anywhere(0, 16)?, Place { a: 63, b: 63 });
    assert_eq!(floor.read(0)?.canisters().len(), 16);
    assert_no_place(&floor, 17);
    Ok(())
}
