//! Four floors, one allowance.

use ceromby::{raw, Barge, Floor, Place, Refusal, FLOORS, MAX_ALLOWANCE};

use crate::{canister, fresh};

fn empty(allowance: u32) -> Result<Barge, Refusal> {
    Barge::new([fresh(), fresh(), fresh(), fresh()], allowance)
}

#[test]
fn what_they_do_on_a_lone_floor() -> Result<(), Refusal> {
    for at in 0..FLOORS as u32 {
        let mut barge = empty(MAX_ALLOWANCE)?;
        let mut lone = fresh();
        barge.book(at, 0, canister(7, 60, 0))?;
        lone.book(0, canister(7, 60, 0))?;
        assert_eq!(barge.floor(at)?, &lone);
        let place = barge.book_anywhere(at, 0, 9)?;
        assert_eq!(place, lone.book_anywhere(0, 9)?);
        assert_eq!(place, Place { a: 0, b: 0 });
        assert_eq!(barge.aboard(), 2);
        let report = barge.round(at)?;
        assert_eq!(report, lone.round()?);
        assert_eq!(report.deliveries().collect::<Vec<_>>(), [(1, &[7][..])]);
        barge.stop(at, 0)?;
        lone.stop(0)?;
        assert_eq!(barge.floor(at)?, &lone);
        barge.repair(at, 0)?;
        lone.repair(0)?;
        assert_eq!(barge.floor(at)?, &lone);
        for other in (0..FLOORS as u32).filter(|other| *other != at) {
            assert_eq!(barge.floor(other)?, &fresh());
        }
        assert_eq!(barge.allowance(), MAX_ALLOWANCE);
    }
    Ok(())
}

#[test]
fn the_allowance() -> Result<(), Refusal> {
    let mut barge = empty(2)?;
    barge.book(0, 0, canister(5, 60, 0))?;
    barge.book_anywhere(3, 0, 5)?;
    let before = barge.clone();
    assert_eq!(
        barge.book(1, 0, canister(5, 0, 0)),
        Err(Refusal::Overloaded)
    );
    assert_eq!(barge.book_anywhere(1, 0, 5), Err(Refusal::Overloaded));
    assert_eq!(barge.book(0, 0, canister(6, 50, 0)), Err(Refusal::TooClose));
    assert_eq!(barge, before);
    assert_eq!(barge.round(0)?.delivered().collect::<Vec<_>>(), [5]);
    barge.book(1, 0, canister(5, 0, 0))?;
    barge.set_allowance(3)?;
    barge.book(2, 0, canister(5, 0, 0))?;
    barge.set_allowance(1)?;
    assert_eq!(barge.book_anywhere(0, 0, 9), Err(Refusal::Overloaded));
    Ok(())
}

#[test]
fn refusals() -> Result<(), Refusal> {
    for allowance in [0, MAX_ALLOWANCE + 1, u32::MAX] {
        assert_eq!(empty(allowance), Err(Refusal::Malformed));
        let mut barge = empty(7)?;
        assert_eq!(barge.set_allowance(allowance), Err(Refusal::Malformed));
        assert_eq!(barge, empty(7)?);
    }
    let mut barge = empty(1)?;
    for floor in [4, 256, u32::MAX] {
        let answers = [
            barge.book(floor, 0, canister(5, 0, 0)),
            barge.book_anywhere(floor, 0, 5).map(drop),
            barge.stop(floor, 0),
            barge.repair(floor, 0),
            barge.round(floor).map(drop),
            barge.floor(floor).map(drop),
            barge.floor_mut(floor).map(drop),
        ];
        assert_eq!(answers, [Err(Refusal::NoFloor); 7]);
    }
    assert_eq!(barge.stop(0, 1), Err(Refusal::StopOfHopper));
    assert_eq!(barge.repair(0, 0), Err(Refusal::Running));
    assert_eq!(barge, empty(1)?);
    Ok(())
}

/// What isn't offered on a barge is done on the floor itself.
#[test]
fn a_floor_in_its_place() -> Result<(), Refusal> {
    let mut barge = empty(9)?;
    let floor = barge.floor_mut(2)?;
    floor.keep("ALL")?;
    floor.stop(0)?;
    assert_eq!(barge.stop(2, 0), Err(Refusal::Stopped));
    barge.floor_mut(2)?.recall("ALL")?;
    barge.book_anywhere(2, 0, 1)?;
    let image = barge.floor(2)?.to_image()?;
    *barge.floor_mut(3)? = Floor::load(&image)?;
    assert_eq!(barge.floor(3)?, barge.floor(2)?);
    assert_eq!(barge.aboard(), 2);
    assert_eq!(barge.as_raw().floors[3], *barge.floor(2)?.as_raw());
    Ok(())
}

#[test]
fn from_memory() -> Result<(), Refusal> {
    let memory = *empty(3)?.as_raw();
    assert_eq!(Barge::try_from(memory)?, empty(3)?);
    for at in 0..FLOORS {
        let mut spoiled = memory;
        spoiled.floors[at].tiles[0].running = 2;
        assert_eq!(Barge::try_from(spoiled), Err(Refusal::Malformed));
    }
    let spoiled = raw::Barge {
        allowance: 0,
        ..memory
    };
    assert_eq!(Barge::try_from(spoiled), Err(Refusal::Malformed));
    Ok(())
}
