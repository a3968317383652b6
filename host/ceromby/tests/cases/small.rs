//! Document 01's marked trials, which are proved of the definitions, and those
//! of reasons.

use ceromby::{tile, Floor, Reason, Refusal, Settings, Side};

use crate::{arrows, canister, distances, fresh, rounds, settings, two_with};

fn delivered_in_round_4(from: u16, places: [u16; 3]) -> Result<(), Refusal> {
    let mut floor = two_with(5, from, 0)?;
    for a in places {
        assert_eq!(floor.round()?.delivered().next(), None);
        assert_eq!(floor.read(0)?.canisters(), [canister(5, a, 0)]);
    }
    assert_eq!(floor.round()?.delivered().collect::<Vec<_>>(), [5]);
    assert_eq!(floor.read(0)?.canisters(), []);
    Ok(())
}

#[test]
fn from_0_delivered_in_round_4() -> Result<(), Refusal> {
    assert_eq!(two_with(5, 0, 0)?.bound()?.rounds, 5);
    delivered_in_round_4(0, [20, 40, 60])
}

#[test]
fn from_10_delivered_in_round_4() -> Result<(), Refusal> {
    delivered_in_round_4(10, [30, 50, 70])
}

#[test]
fn beside_0_0() -> Result<(), Refusal> {
    let mut floor = two_with(5, 0, 0)?;
    assert_eq!(floor.book(0, canister(6, 39, 39)), Err(Refusal::TooClose));
    floor.book(0, canister(6, 40, 0))?;
    let due = [canister(5, 0, 0), canister(6, 40, 0)];
    assert_eq!(floor.read(0)?.canisters(), due);
    Ok(())
}

#[test]
fn a_70_accepted_71_is_7() -> Result<(), Refusal> {
    two_with(5, 70, 0)?;
    assert_eq!(two_with(5, 71, 0), Err(Refusal::Outside));
    Ok(())
}

#[test]
fn v_29_accepted_30_is_3() -> Result<(), Refusal> {
    let with = |travel| {
        Floor::fresh(Settings {
            travel,
            ..settings(2, 1, tile(1), tile(0))
        })
    };
    with(29)?;
    assert_eq!(with(30), Err(Refusal::Measure));
    Ok(())
}

#[test]
fn westward_onto_tile_1_at_70_0() -> Result<(), Refusal> {
    let mut floor = fresh(3, 1, tile(0), tile(1) | tile(2));
    floor.book(2, canister(5, 5, 0))?;
    rounds(&mut floor, 2)?;
    assert_eq!(floor.read(1)?.canisters(), [canister(5, 70, 0)]);
    assert_eq!(floor.read(2)?.canisters(), []);
    Ok(())
}

#[test]
fn settled_distances_and_tile_1_stopped() -> Result<(), Refusal> {
    let mut floor = fresh(4, 1, tile(0), tile(1) | tile(2) | tile(3));
    rounds(&mut floor, 3)?;
    assert_eq!(distances(&floor), [Some(0), Some(1), Some(2), Some(3)]);
    floor.stop(1)?;
    assert_eq!(floor.read(1)?.distance(), None);
    floor.round()?;
    assert_eq!(distances(&floor), [Some(0), None, None, Some(3)]);
    floor.round()?;
    assert_eq!(distances(&floor), [Some(0), None, None, None]);
    Ok(())
}

#[test]
fn a_tie_goes_north() -> Result<(), Refusal> {
    let mut floor = fresh(2, 2, tile(3), tile(0) | tile(1) | tile(2));
    rounds(&mut floor, 3)?;
    assert_eq!(arrows(&floor)[0], Some(Side::North));
    Ok(())
}

/// W 3, hopper 1, canisters on tiles 0 and 2.
fn both_sides() -> Result<Floor, Refusal> {
    let mut floor = fresh(3, 1, tile(1), tile(0) | tile(2));
    floor.book(0, canister(5, 0, 0))?;
    floor.book(2, canister(6, 0, 0))?;
    Ok(floor)
}

#[test]
fn grants_west_then_east() -> Result<(), Refusal> {
    let mut floor = both_sides()?;
    assert_eq!(floor.round()?.grant(1), Some(Side::West));
    assert_eq!(floor.round()?.grant(1), Some(Side::East));
    Ok(())
}

#[test]
fn tile_0_moves_tile_2_waits_for_its_turn() -> Result<(), Refusal> {
    let report = both_sides()?.round()?;
    let reasons: Vec<_> = report.reasons().map(|(_, reason)| reason).collect();
    assert_eq!(reasons, [Reason::Moved, Reason::Empty, Reason::Turn]);
    Ok(())
}

#[test]
fn no_arrow_yet_then_no_gap() -> Result<(), Refusal> {
    let mut floor = fresh(3, 1, tile(2), tile(0) | tile(1));
    floor.book(0, canister(5, 0, 0))?;
    floor.book(1, canister(6, 0, 0))?;
    for first in [Reason::NoArrow, Reason::NoGap { missing: 20 }] {
        let report = floor.round()?;
        let reasons: Vec<_> = report.reasons().map(|(_, reason)| reason).collect();
        assert_eq!(reasons, [first, Reason::Moved, Reason::Empty]);
    }
    Ok(())
}
