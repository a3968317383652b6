//! Medicated feed follows plain.

use crate::SETTINGS;
use ceromby::raw::plan::{offer, release, report, MAX_ENTRIES, STAGE_DELIVERED};
use ceromby::raw::{fresh, refusal, round, stop, Entry, Plan, Stage};

#[test]
fn one_after_the_other() {
    let mut plan = Plan::of(&[Entry::waiting(9, 0, 4, 0), Entry::waiting(4, 0, 0, 0)]);
    let mut floor = fresh(SETTINGS).floor;
    for (label, at, number) in [(4, 1, 1), (9, 0, 2)] {
        assert_eq!(offer(&plan), Ok(Some(label)));
        let released = release(&plan, &floor, label.into());
        assert_eq!((released.refusal, released.number), (0, number));
        assert_eq!(released.place(), Some((0, 0)));
        (plan, floor) = (released.plan, released.floor);
        for _ in 0..4 {
            assert_eq!(plan.entries[at].stage(), Stage::Booked(number));
            assert_eq!(offer(&plan), Ok(None));
            assert_eq!(release(&plan, &floor, 9).refusal, refusal::NOT_RELEASED);
            let rounded = round(&floor);
            let planned = report(&plan, &rounded.report);
            assert_eq!(planned.refusal, 0);
            (plan, floor) = (planned.plan, rounded.floor);
        }
        assert_eq!(plan.entries[at].stage(), Stage::Delivered);
    }
    assert_eq!(offer(&plan), Ok(None));
    assert_eq!(plan.used().len(), 2);
}

#[test]
fn refusals() {
    let floor = fresh(SETTINGS).floor;
    let halted = stop(&floor, 0).floor;
    let mut malformed = floor;
    malformed.tiles[0].running = 2;
    let one = Entry::waiting(1, 0, 0, 0);
    let plan = Plan::of(&[one, Entry::waiting(2, 1, 0, 0), Entry::waiting(3, 9, 0, 0)]);
    for (floor, label, refusal) in [
        (malformed, 1, refusal::MALFORMED),
        (floor, 4, refusal::NOT_RELEASED),
        (floor, 257, refusal::NOT_RELEASED),
        (floor, 3, refusal::NO_TILE),
        (floor, 2, refusal::NOT_A_SOURCE),
        (halted, 1, refusal::STOPPED),
    ] {
        let released = release(&plan, &floor, label);
        assert_eq!((released.refusal, released.place()), (refusal, None));
        assert_eq!((released.plan, released.floor), (plan, floor));
        assert_eq!((released.number, released.a, released.b), (0, 0, 0));
    }
    for (bad, refusal) in [
        (Plan::of(&[one, one]), refusal::BAD_LABEL),
        (Plan::of(&[Entry::waiting(65, 0, 0, 0)]), refusal::BAD_LABEL),
        (
            Plan::of(&[one, Entry::waiting(2, 0, 2, 0)]),
            refusal::BAD_LABEL,
        ),
        (Plan::of(&[one; MAX_ENTRIES + 1]), refusal::MALFORMED),
        (
            Plan::of(&[
                one,
                Entry {
                    stage: STAGE_DELIVERED,
                    ..Entry::waiting(2, 0, 1, 0)
                },
            ]),
            refusal::MALFORMED,
        ),
    ] {
        assert_eq!(offer(&bad), Err(refusal));
        assert_eq!(release(&bad, &floor, 1).refusal, refusal);
        let planned = report(&bad, &round(&floor).report);
        assert_eq!((planned.refusal, planned.plan), (refusal, bad));
    }
    let mut told = round(&floor).report;
    told.deliveries[3].count = 5;
    assert_eq!(report(&plan, &told).refusal, refusal::MALFORMED);
}
