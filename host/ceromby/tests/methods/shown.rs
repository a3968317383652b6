//! What a person reads.

use ceromby::{tile, Barge, Floor, Name, Plan, Refusal, Settings, Side};

use crate::{canister, fresh, SETTINGS};

#[test]
fn the_page() -> Result<(), Refusal> {
    let mut floor = fresh();
    assert_eq!(floor.to_string(), "| 0 - --| 0 -  0|\n");
    floor.book(0, canister(5, 0, 0))?;
    floor.round()?;
    assert_eq!(format!("{floor}"), "| 1 E  1| 0 -  0|\n");
    let mut buffer = [0x5a; 20];
    assert_eq!(floor.page(&mut buffer), Ok(18));
    assert_eq!(buffer[18..], [0x5a; 2]);
    Ok(())
}

#[test]
fn a_floor() -> Result<(), Refusal> {
    let mut floor = fresh();
    floor.book(0, canister(5, 0, 0))?;
    floor.keep("ALL")?;
    floor.round()?;
    let due = "Floor { \
        settings: Settings { columns: 2, rows: 1, hoppers: {1}, sources: {0}, width: 100, \
        length: 30, gap: 10, travel: 20 }, \
        counters: Counters { last: 5, booked: 1, delivered: [0, 0, 0, 0] }, \
        page: [\"| 1 E  1| 0 -  0|\"], turns: {1: West}, canisters: [5 on 0 at (20, 0)], \
        layouts: [Layout { name: \"ALL\", set: {0, 1} }] }";
    assert_eq!(format!("{floor:?}"), due);
    Ok(())
}

/// A floor without canisters takes a few lines, as C gets it too.
#[test]
fn a_large_floor_without_canisters() -> Result<(), Refusal> {
    let floor = Floor::fresh(Settings {
        columns: 8,
        rows: 8,
        ..SETTINGS
    })?;
    let shown = format!("{floor:?}").len();
    assert!(shown < 1_000, "{shown}");
    let shown = format!("{floor:#?}").lines().count();
    assert!(shown < 60, "{shown}");
    let shown = format!("{:?}", fresh().as_raw()).len();
    assert!(shown < 600, "{shown}");
    let barge = Barge::new([fresh(), fresh(), fresh(), fresh()], 9)?;
    let shown = format!("{barge:?}").len();
    assert!(shown < 2_000, "{shown}");
    Ok(())
}

#[test]
fn the_others() -> Result<(), Refusal> {
    let mut floor = fresh();
    floor.book(0, canister(5, 60, 0))?;
    let report = floor.round()?;
    assert_eq!(
        format!("{report:?}"),
        "Report { deliveries: {1: [5]}, grants: {1: West}, reasons: {0: Moved, 1: Empty} }"
    );
    assert_eq!(
        format!("{:?}", floor.read(0)?),
        "Tile { running: true, distance: Some(1), arrow: Some(East), turn: None, canisters: [] }"
    );
    assert_eq!(format!("{:?}", Plan::default()), "[]");
    assert_eq!(Side::East.to_string(), "east");
    assert_eq!(format!("{:6}|", Name::from("NETS")), "NETS  |");
    assert_eq!(format!("{:?}", Name::from("A B")), "\"A B\"");
    assert_eq!(
        ceromby::tiles(tile(0) | tile(63)).collect::<Vec<_>>(),
        [0, 63]
    );
    Ok(())
}
