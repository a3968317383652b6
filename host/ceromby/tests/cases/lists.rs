//! A list of bookings in one call ([4]).

use ceromby::raw::{self, refusal};
use ceromby::{Booking, Counters, Refusal, LONGEST_LIST};

use crate::{canister, two};

fn entry(tile: u32, number: u32, a: u16, b: u16) -> Booking {
    Booking::new(tile, canister(number, a, b))
}

/// Three of the six are refused, each for another reason.
#[test]
fn a_list_of_six_34_33_and_5_between_accepted_ones() -> Result<(), Refusal> {
    let mut floor = two();
    let mut list = [
        entry(0, 5, 0, 0),
        entry(0, 6, 39, 39),
        entry(0, 6, 40, 0),
        entry(0, 6, 0, 40),
        entry(1, 7, 0, 0),
        entry(0, 8, 0, 40),
        entry(0, 9, 40, 40),
    ];
    assert_eq!(floor.book_list(&mut list[..6])?, 3);
    let due = [
        Some(Ok(())),
        Some(Err(Refusal::TooClose)),
        Some(Ok(())),
        Some(Err(Refusal::NumberUsed)),
        Some(Err(Refusal::NotASource)),
        Some(Ok(())),
        None,
    ];
    assert_eq!(list.map(|entry| entry.answer()), due);
    let due = [canister(5, 0, 0), canister(6, 40, 0), canister(8, 0, 40)];
    assert_eq!(floor.read(0)?.canisters(), due);
    let due = Counters {
        last: 8,
        booked: 3,
        delivered: [0; 4],
    };
    assert_eq!(*floor.counters(), due);
    Ok(())
}

#[test]
fn of_64_entries_one_is_booked_the_others_are_33() -> Result<(), Refusal> {
    let mut floor = two();
    let mut list = [entry(0, 5, 0, 0); LONGEST_LIST];
    assert_eq!(floor.book_list(&mut list)?, 1);
    assert_eq!(list[0].answer(), Some(Ok(())));
    for entry in &list[1..] {
        assert_eq!(entry.answer(), Some(Err(Refusal::NumberUsed)));
    }
    assert_eq!((floor.counters().last, floor.counters().booked), (5, 1));
    Ok(())
}

#[test]
fn of_65_entries_42_and_no_answer_written() {
    let handed = [entry(0, 5, 0, 0); LONGEST_LIST + 1];
    let mut list = handed;
    let answer = raw::book_list(two().as_raw(), &mut list);
    assert_eq!(answer.refusal, refusal::LIST_TOO_LONG);
    assert_eq!(answer.floor, *two().as_raw());
    assert_eq!(list, handed);
}
