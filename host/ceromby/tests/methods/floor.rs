//! One floor.

use ceromby::{tile, Booking, Floor, Place, Reason, Refusal, Settings, Side, LONGEST_LIST};

use crate::{canister, fresh, SETTINGS};

#[test]
fn the_first_trial() -> Result<(), Refusal> {
    let mut floor = Floor::fresh(SETTINGS)?;
    floor.book(0, canister(5, 0, 0))?;
    for a in [20, 40, 60] {
        let report = floor.round()?;
        assert_eq!(report.delivered().next(), None);
        assert_eq!(report.reason(0), Some(Reason::Moved));
        assert_eq!(floor.read(0)?.canisters(), [canister(5, a, 0)]);
    }
    let report = floor.round()?;
    assert_eq!(report.delivered().collect::<Vec<_>>(), [5]);
    assert_eq!(report.deliveries().collect::<Vec<_>>(), [(1, &[5][..])]);
    assert_eq!(floor.counters().delivered, [1, 0, 0, 0]);
    assert_eq!(floor.aboard(), 0);
    floor.stop(0)?;
    assert!(!floor.read(0)?.is_running());
    assert_eq!(floor.stop(0), Err(Refusal::Stopped));
    floor.repair(0)?;
    assert_eq!(floor.repair(0), Err(Refusal::Running));
    Ok(())
}

#[test]
fn fresh_floors_that_are_refused() {
    for (settings, refusal) in [
        (
            Settings {
                rows: 9,
                ..SETTINGS
            },
            Refusal::Grid,
        ),
        (
            Settings {
                hoppers: 0,
                ..SETTINGS
            },
            Refusal::Sets,
        ),
        (
            Settings {
                travel: 30,
                ..SETTINGS
            },
            Refusal::Measure,
        ),
    ] {
        assert_eq!(Floor::fresh(settings), Err(refusal));
    }
}

/// Another floor in the same place; refused, the one before stays.
#[test]
fn in_the_place_of_another() -> Result<(), Refusal> {
    let (standard, image) = (Floor::load(&[])?, fresh().to_image()?);
    let mut floor = standard.clone();
    floor.reload(&image)?;
    assert_eq!(floor, fresh());
    floor.renew(*standard.settings())?;
    assert_eq!(floor, standard);
    floor.book_anywhere(4, 1)?;
    let before = floor.clone();
    assert_eq!(floor.reload(&image[1..]), Err(Refusal::ImageEnds));
    let settings = Settings {
        rows: 9,
        ..SETTINGS
    };
    assert_eq!(floor.renew(settings), Err(Refusal::Grid));
    assert_eq!(floor, before);
    Ok(())
}

/// Every refusal of every method that changes a floor, and the floor after it.
#[test]
fn refused_the_floor_is_as_it_was() -> Result<(), Refusal> {
    let mut floor = Floor::fresh(Settings {
        columns: 3,
        hoppers: tile(2),
        sources: tile(0) | tile(1),
        ..SETTINGS
    })?;
    floor.book(0, canister(5, 0, 0))?;
    floor.stop(1)?;
    for letter in b'A'..=b'H' {
        floor.keep(core::str::from_utf8(&[letter]).expect("a letter"))?;
    }
    floor.round()?;
    let mut full = Floor::fresh(SETTINGS)?;
    for number in 1..=4 {
        full.book_anywhere(0, number)?;
    }
    let mut long = [Booking::new(0, canister(9, 0, 0)); LONGEST_LIST + 1];

    let before = (floor.clone(), full.clone(), long);
    let near = canister(6, 39, 39);
    let refusals = [
        (floor.book(3, near), Refusal::NoTile),
        (floor.book(256, near), Refusal::NoTile),
        (floor.book(2, near), Refusal::NotASource),
        (floor.book(0, canister(0, 0, 40)), Refusal::NumberZero),
        (floor.book(0, canister(6, 71, 0)), Refusal::Outside),
        (floor.book(1, canister(6, 0, 0)), Refusal::Stopped),
        (floor.book(0, canister(5, 40, 0)), Refusal::NumberUsed),
        (floor.book(0, near), Refusal::TooClose),
        (floor.book_anywhere(3, 6).map(drop), Refusal::NoTile),
        (floor.book_anywhere(2, 6).map(drop), Refusal::NotASource),
        (floor.book_anywhere(0, 0).map(drop), Refusal::NumberZero),
        (floor.book_anywhere(1, 6).map(drop), Refusal::Stopped),
        (floor.book_anywhere(0, 5).map(drop), Refusal::NumberUsed),
        (full.book_anywhere(0, 5).map(drop), Refusal::NoPlace),
        (floor.book_list(&mut long).map(drop), Refusal::ListTooLong),
        (floor.stop(3), Refusal::NoTile),
        (floor.stop(2), Refusal::StopOfHopper),
        (floor.stop(1), Refusal::Stopped),
        (floor.repair(3), Refusal::NoTile),
        (floor.repair(0), Refusal::Running),
        (floor.keep("nets"), Refusal::BadName),
        (floor.keep("NETS"), Refusal::LayoutsFull),
        (floor.forget(""), Refusal::BadName),
        (floor.forget("NETS"), Refusal::NameNotHeld),
        (floor.recall("ABCDEFGHI"), Refusal::BadName),
        (floor.recall("NETS"), Refusal::NameNotHeld),
        (floor.read(3).map(drop), Refusal::NoTile),
        (floor.write(&mut [0; 9]).map(drop), Refusal::ShortBuffer),
        (floor.page(&mut [0; 9]).map(drop), Refusal::ShortPage),
    ];
    for (at, (answer, refusal)) in refusals.into_iter().enumerate() {
        assert_eq!(answer, Err(refusal), "{at}");
    }
    assert_eq!((floor, full, long), before);
    Ok(())
}

#[test]
fn bookings_without_a_place() -> Result<(), Refusal> {
    let mut floor = fresh();
    for (number, a, b) in [(1, 0, 0), (2, 40, 0), (5, 0, 40), (9, 40, 40)] {
        let mut there = floor.clone();
        there.book(0, canister(number, a, b))?;
        assert_eq!(floor.book_anywhere(0, number)?, Place { a, b });
        assert_eq!(floor, there);
    }
    assert_eq!(floor.aboard(), 4);
    Ok(())
}

#[test]
fn lists_of_bookings() -> Result<(), Refusal> {
    let mut floor = fresh();
    let mut list = [
        Booking::new(0, canister(3, 0, 0)),
        Booking::new(0, canister(4, 39, 39)),
        Booking::new(0, canister(5, 40, 0)),
        Booking::new(1, canister(6, 0, 0)),
    ];
    assert!(list.iter().all(|entry| entry.answer().is_none()));
    assert_eq!(floor.book_list(&mut list)?, 2);
    let answers = list.map(|entry| entry.answer().expect("sent"));
    let due = [
        Ok(()),
        Err(Refusal::TooClose),
        Ok(()),
        Err(Refusal::NotASource),
    ];
    assert_eq!(answers, due);
    let booked: Vec<_> = floor.canisters().collect();
    assert_eq!(booked, [(0, canister(3, 0, 0)), (0, canister(5, 40, 0))]);
    assert_eq!(floor.book_list(&mut [])?, 0);
    Ok(())
}

/// A list that is too long has no answers.
#[test]
fn a_list_that_is_too_long() {
    let mut list = [Booking::new(0, canister(3, 0, 0)); LONGEST_LIST + 1];
    let mut floor = fresh();
    assert_eq!(floor.book_list(&mut list), Err(Refusal::ListTooLong));
    assert!(list.iter().all(|entry| entry.answer().is_none()));
    assert_eq!(floor.book_list(&mut list[1..]), Ok(1));
}

#[test]
fn layouts() -> Result<(), Refusal> {
    let mut floor = fresh();
    floor.keep("ALL")?;
    floor.stop(0)?;
    floor.keep("ABCDEFGH")?;
    let kept: Vec<_> = floor
        .layouts()
        .map(|layout| (layout.letters().to_string(), layout.set))
        .collect();
    let due = [("ABCDEFGH".to_string(), tile(1)), ("ALL".to_string(), 3)];
    assert_eq!(kept, due);
    floor.recall("ALL")?;
    assert!(floor.read(0)?.is_running());
    floor.recall("ABCDEFGH")?;
    assert!(!floor.read(0)?.is_running());
    floor.forget("ALL")?;
    assert_eq!(floor.layouts().count(), 1);
    Ok(())
}

/// What the iterators give is what the calls give.
#[test]
fn tiles_and_canisters() -> Result<(), Refusal> {
    let mut floor = Floor::load(&[])?;
    for number in 1..=9 {
        floor.book_anywhere(4, number)?;
        floor.round()?;
        floor.round()?;
    }
    floor.stop(3)?;
    assert_eq!(floor.tiles().len(), 16);
    let mut met = Vec::new();
    for (number, tile) in floor.tiles() {
        assert_eq!(floor.read(number)?, tile);
        met.extend(tile.canisters().iter().map(|canister| (number, *canister)));
    }
    assert_eq!(floor.canisters().collect::<Vec<_>>(), met);
    assert_eq!(floor.aboard() as usize, met.len());
    assert_eq!(floor.aboard() + floor.counters().delivered[0], 9);
    let (_, hopper) = floor.tiles().nth(10).expect("the hopper");
    assert_eq!((hopper.distance(), hopper.arrow()), (Some(0), None));
    let (_, beside) = floor.tiles().nth(6).expect("west of it");
    assert_eq!(
        (beside.distance(), beside.arrow()),
        (Some(1), Some(Side::East))
    );
    let (_, stopped) = floor.tiles().nth(3).expect("stopped");
    assert_eq!((stopped.distance(), stopped.is_running()), (None, false));
    Ok(())
}

#[test]
fn two_hoppers_and_why_a_tile_stands() -> Result<(), Refusal> {
    let mut floor = Floor::fresh(Settings {
        columns: 5,
        hoppers: tile(0) | tile(4),
        sources: tile(1) | tile(2) | tile(3),
        ..SETTINGS
    })?;
    for (on, number, a) in [(3, 5, 60), (1, 9, 10), (2, 11, 0)] {
        floor.book(on, canister(number, a, 0))?;
    }
    let report = floor.round()?;
    let due = [(0, &[9][..]), (4, &[5][..])];
    assert_eq!(report.deliveries().collect::<Vec<_>>(), due);
    assert_eq!(report.delivered().collect::<Vec<_>>(), [9, 5]);
    let reasons: Vec<_> = report.reasons().map(|(_, reason)| reason).collect();
    let due = [
        Reason::Empty,
        Reason::Moved,
        Reason::NoArrow,
        Reason::Moved,
        Reason::Empty,
    ];
    assert_eq!(reasons, due);
    assert_eq!(report.reason(5), None);
    let grants: Vec<_> = report.grants().collect();
    assert_eq!(grants, [(0, Side::East), (4, Side::West)]);
    assert_eq!(report.grant(u32::MAX), None);
    Ok(())
}

#[test]
fn a_gap_that_is_missing() -> Result<(), Refusal> {
    let mut floor = Floor::fresh(Settings {
        columns: 3,
        hoppers: tile(2),
        sources: tile(0) | tile(1),
        ..SETTINGS
    })?;
    floor.book(0, canister(1, 0, 0))?;
    floor.book(1, canister(2, 5, 0))?;
    floor.round()?;
    let report = floor.round()?;
    assert_eq!(report.reason(0), Some(Reason::NoGap { missing: 15 }));
    assert_eq!(
        report.reason(0).map(|reason| reason.to_string()).as_deref(),
        Some("no gap, 15 mm missing")
    );
    Ok(())
}
