//! Floors with several hoppers ([10]).

use ceromby::{tile, Floor, Refusal, Side};

use crate::{arrows, canister, deliveries, fresh, rounds, settings};

/// No hopper passes anything on to the one beside it.
#[test]
fn hoppers_1_and_2_each_takes_from_its_side() -> Result<(), Refusal> {
    let mut floor = fresh(4, 1, tile(1) | tile(2), tile(0) | tile(3));
    floor.book(0, canister(5, 0, 0))?;
    floor.book(3, canister(6, 10, 0))?;
    assert_eq!(deliveries(&floor.round()?), [(1, vec![]), (2, vec![6])]);
    let due = [Some(Side::East), None, None, Some(Side::West)];
    assert_eq!(arrows(&floor), due);
    rounds(&mut floor, 2)?;
    assert_eq!(deliveries(&floor.round()?), [(1, vec![5]), (2, vec![])]);
    Ok(())
}

/// The arrow of tile 1 between hoppers 0 and 2, whose canister goes to hopper 0.
fn arrow_between(columns: u8, rows: u8) -> Result<Option<Side>, Refusal> {
    let mut floor = fresh(columns, rows, tile(0) | tile(2), tile(1));
    floor.book(1, canister(5, 30, 30))?;
    floor.round()?;
    let arrow = arrows(&floor)[1];
    assert_eq!(deliveries(&floor.round()?), [(0, vec![5]), (2, vec![])]);
    assert_eq!(floor.counters().delivered, [1, 0, 0, 0]);
    Ok(arrow)
}

#[test]
fn between_hoppers_0_and_2_west_in_a_row_south_in_a_column() -> Result<(), Refusal> {
    assert_eq!(arrow_between(3, 1)?, Some(Side::West));
    assert_eq!(arrow_between(1, 3)?, Some(Side::South));
    Ok(())
}

#[test]
fn hoppers_0_and_3_round_4_delivers_at_both() -> Result<(), Refusal> {
    let mut floor = fresh(4, 1, tile(0) | tile(3), tile(1) | tile(2));
    floor.book(1, canister(5, 70, 0))?;
    floor.book(2, canister(6, 0, 0))?;
    rounds(&mut floor, 2)?;
    assert_eq!(deliveries(&floor.round()?), [(0, vec![]), (3, vec![])]);
    assert_eq!(deliveries(&floor.round()?), [(0, vec![5]), (3, vec![6])]);
    assert_eq!(floor.counters().delivered, [1, 1, 0, 0]);
    Ok(())
}

#[test]
fn four_hoppers_a_fill_tile_is_2_a_booking_5_a_stop_8() -> Result<(), Refusal> {
    let all = tile(0) | tile(1) | tile(2) | tile(3);
    let filled = Floor::fresh(settings(2, 2, all, tile(3)));
    assert_eq!(filled, Err(Refusal::Sets));
    let mut floor = fresh(2, 2, all, 0);
    let booked = floor.book(3, canister(5, 0, 0));
    assert_eq!(booked, Err(Refusal::NotASource));
    assert_eq!(floor.stop(3), Err(Refusal::StopOfHopper));
    floor.round()?;
    assert_eq!(floor.read(3)?.distance(), Some(0));
    Ok(())
}

/// Tile 2 is as near to both hoppers. Canister 5 heads west until tile 1 stops.
#[test]
fn hoppers_0_and_4_tile_1_stopped_5_is_delivered_at_4() -> Result<(), Refusal> {
    let mut floor = fresh(5, 1, tile(0) | tile(4), tile(1) | tile(2) | tile(3));
    floor.book(2, canister(5, 30, 0))?;
    rounds(&mut floor, 2)?;
    assert_eq!(arrows(&floor)[2], Some(Side::West));
    floor.stop(1)?;
    assert_eq!(floor.read(2)?.canisters(), [canister(5, 10, 0)]);
    floor.round()?;
    assert_eq!(arrows(&floor)[2], Some(Side::East));
    rounds(&mut floor, 6)?;
    assert_eq!(deliveries(&floor.round()?), [(0, vec![]), (4, vec![5])]);
    assert_eq!(floor.counters().delivered, [0, 1, 0, 0]);
    Ok(())
}

/// W 3, hoppers 0 and 2: 5 was delivered to hopper 0, 6 is still on tile 1.
pub fn one_delivered() -> Result<Floor, Refusal> {
    let mut floor = fresh(3, 1, tile(0) | tile(2), tile(1));
    floor.book(1, canister(5, 10, 0))?;
    floor.book(1, canister(6, 60, 40))?;
    floor.round()?;
    Ok(floor)
}

#[test]
fn hoppers_0_and_2_an_image_of_94_bytes_loaded_again() -> Result<(), Refusal> {
    let image = one_delivered()?.to_image()?;
    assert_eq!(image.len(), 94);
    let mut loaded = Floor::load(&image)?;
    assert_eq!(loaded, one_delivered()?);
    assert_eq!(loaded.to_image()?, image);
    assert_eq!(loaded.counters().delivered, [1, 0, 0, 0]);
    loaded.round()?;
    assert_eq!(loaded.read(1)?.canisters(), [canister(6, 20, 40)]);
    Ok(())
}
