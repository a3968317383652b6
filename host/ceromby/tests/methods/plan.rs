//! Medicated feed follows plain.

use ceromby::{raw, Entry, Plan, Refusal, Released, Stage, MAX_ENTRIES};

use crate::fresh;

#[test]
fn one_after_the_other() -> Result<(), Refusal> {
    let mut plan = Plan::new(&[Entry::new(9, 0).after(4), Entry::new(4, 0)])?;
    let mut floor = fresh();
    for (label, at, number) in [(4, 1, 1), (9, 0, 2)] {
        assert_eq!(plan.offer()?, Some(label));
        let released = plan.release(&mut floor, label)?;
        let place = ceromby::Place { a: 0, b: 0 };
        assert_eq!(released, Released { number, place });
        while plan.entries()[at].stage() == Stage::Booked(number) {
            assert_eq!(plan.offer()?, None);
            let before = (plan.clone(), floor.clone());
            assert_eq!(plan.release(&mut floor, 9), Err(Refusal::NotReleased));
            assert_eq!((&plan, &floor), (&before.0, &before.1));
            plan.report(&floor.round()?)?;
        }
        assert_eq!(plan.entries()[at].stage(), Stage::Delivered);
    }
    assert!(plan.is_done());
    assert_eq!(plan.offer()?, None);
    Ok(())
}

#[test]
fn plans_that_are_refused() {
    let one = Entry::new(1, 0);
    let delivered = Entry {
        stage: raw::plan::STAGE_DELIVERED,
        ..Entry::new(2, 0).after(1)
    };
    for (entries, refusal) in [
        (&[one, one][..], Refusal::BadLabel),
        (&[Entry::new(0, 0)], Refusal::BadLabel),
        (&[Entry::new(65, 0)], Refusal::BadLabel),
        (&[one, Entry::new(2, 0).after(2)], Refusal::BadLabel),
        (&[one, Entry::new(3, 0).after_both(1, 2)], Refusal::BadLabel),
        (&[one; MAX_ENTRIES + 1], Refusal::Malformed),
        (&[one, delivered], Refusal::Malformed),
    ] {
        assert_eq!(Plan::new(entries), Err(refusal));
    }
    assert_eq!(Plan::new(&[]), Ok(Plan::default()));
}

#[test]
fn releases_that_are_refused() -> Result<(), Refusal> {
    let entries = [Entry::new(1, 0), Entry::new(2, 1), Entry::new(3, 9)];
    let mut plan = Plan::new(&entries)?;
    let mut floor = fresh();
    floor.stop(0)?;
    let before = (plan.clone(), floor.clone());
    for (label, refusal) in [
        (0, Refusal::NotReleased),
        (4, Refusal::NotReleased),
        (3, Refusal::NoTile),
        (2, Refusal::NotASource),
        (1, Refusal::Stopped),
    ] {
        assert_eq!(plan.release(&mut floor, label), Err(refusal));
    }
    assert_eq!((&plan, &floor), (&before.0, &before.1));
    floor.repair(0)?;
    plan.release(&mut floor, 1)?;
    // another floor, on which number 1 was never booked
    let mut other = fresh();
    assert_eq!(plan.release(&mut other, 2), Err(Refusal::Malformed));
    assert_eq!(other, fresh());
    Ok(())
}

/// A plan that was stored entry by entry goes on.
#[test]
fn stored_and_made_again() -> Result<(), Refusal> {
    let mut plan = Plan::new(&[Entry::new(1, 0), Entry::new(2, 0).after(1)])?;
    let mut floor = fresh();
    plan.release(&mut floor, 1)?;
    let stored = plan.entries().to_vec();
    let mut again = Plan::new(&stored)?;
    assert_eq!(again, plan);
    assert_eq!(Plan::try_from(*plan.as_raw())?, plan);
    while floor.aboard() > 0 {
        again.report(&floor.round()?)?;
    }
    assert_eq!(again.offer()?, Some(2));
    assert_eq!(plan.offer()?, None);
    Ok(())
}
