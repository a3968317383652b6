//! Plans ([12]): one run to its end, what each call refuses, and what a report
//! marks.

use ceromby::raw::plan::{offer, release, report, STAGE_BOOKED, STAGE_DELIVERED, STAGE_WAITING};
use ceromby::raw::{self, as_in_c, refusal, Delivery, Entry, Floor, Plan, Report, Stage};
use ceromby::Refusal;

use crate::{two, two_with};

/// On tile 0, after no other; number 0 where it waits.
fn entry(label: u8, stage: u8, number: u32) -> Entry {
    Entry {
        stage,
        number,
        ..Entry::new(label, 0)
    }
}

fn waiting(label: u8) -> Entry {
    Entry::new(label, 0)
}

/// A plan of these entries; the places after them hold what no plan may hold.
fn plan_of(entries: &[Entry]) -> Plan {
    let unused = entry(200, 7, 5).after_both(200, 1);
    let mut plan = Plan::of(entries);
    plan.entries[entries.len()..].fill(unused);
    plan
}

/// 4 after 2 and 3, both of them after 1.
fn diamond() -> Plan {
    plan_of(&[
        waiting(4).after_both(2, 3),
        waiting(3).after(1),
        waiting(1),
        waiting(2).after_both(1, 1),
    ])
}

/// A plan, its floor, and the labels released so far.
struct Run {
    plan: ceromby::Plan,
    floor: ceromby::Floor,
    released: Vec<u8>,
}

impl Run {
    fn of(plan: Plan) -> Result<Run, Refusal> {
        Ok(Run {
            plan: plan.try_into()?,
            floor: two(),
            released: Vec::new(),
        })
    }

    /// What is offered is released; where nothing is, a round's report is handed in.
    fn step(&mut self) -> Result<(), Refusal> {
        match self.plan.offer()? {
            Some(label) => {
                self.plan.release(&mut self.floor, label)?;
                self.released.push(label);
            }
            None => self.plan.report(&self.floor.round()?)?,
        }
        Ok(())
    }

    fn stages(&self) -> Vec<Stage> {
        self.plan.entries().iter().map(Entry::stage).collect()
    }
}

#[test]
fn of_four_1_alone_is_released_first() -> Result<(), Refusal> {
    let mut run = Run::of(diamond())?;
    run.step()?;
    run.step()?;
    assert_eq!(run.released, [1]);
    let waits = Stage::Waiting;
    assert_eq!(run.stages(), [waits, waits, Stage::Booked(1), waits]);
    assert_eq!(run.floor.counters().delivered, [0; 4]);
    Ok(())
}

#[test]
fn run_to_its_end_1_then_2_and_3_then_4() -> Result<(), Refusal> {
    let mut run = Run::of(diamond())?;
    for _ in 0..60 {
        run.step()?;
    }
    assert_eq!(run.released, [1, 2, 3, 4]);
    assert_eq!(run.stages(), [Stage::Delivered; 4]);
    let numbers: Vec<_> = run.plan.entries().iter().map(|at| at.number).collect();
    assert_eq!(numbers, [4, 3, 1, 2]);
    assert_eq!(run.floor.counters().delivered, [4, 0, 0, 0]);
    Ok(())
}

/// A release that is refused by this number: zeros, and the same floor and plan.
#[track_caller]
fn assert_unreleased(plan: &Plan, floor: &Floor, label: u32, refusal: u8) {
    let released = release(plan, floor, label);
    assert_eq!(released.refusal, refusal);
    assert_eq!((released.number, released.a, released.b), (0, 0, 0));
    assert_eq!(released.floor, *floor);
    assert_eq!(released.plan, *plan);
}

/// Offer, release and report refuse a plan by this number and give it back.
#[track_caller]
fn assert_refused(plan: &Plan, refusal: u8) {
    let offered = as_in_c::offer(plan);
    assert_eq!((offered.refusal, offered.label), (refusal, 0));
    assert_unreleased(plan, two().as_raw(), 1, refusal);
    let planned = report(plan, &Report::default());
    assert_eq!((planned.refusal, planned.plan), (refusal, *plan));
}

#[test]
fn from_every_call_30() {
    let mut claims_65 = plan_of(&[waiting(1), waiting(2), waiting(3), waiting(4)]);
    claims_65.count = 65;
    let booked = |label, number| entry(label, STAGE_BOOKED, number);
    for (what, plan) in [
        ("65 entries", claims_65),
        (
            "a predecessor waiting",
            plan_of(&[waiting(1), booked(2, 5).after(1)]),
        ),
        (
            "a predecessor booked",
            plan_of(&[
                entry(1, 3, 6),
                entry(2, STAGE_DELIVERED, 5).after_both(0, 1),
            ]),
        ),
        (
            "one of two such labels",
            plan_of(&[
                entry(70, STAGE_DELIVERED, 6),
                entry(70, STAGE_WAITING, 6),
                booked(2, 5).after(70),
            ]),
        ),
        ("a number twice", plan_of(&[booked(1, 6), entry(2, 255, 6)])),
        (
            "an entry after itself",
            plan_of(&[booked(2, 6).after(2), waiting(1)]),
        ),
    ] {
        println!("{what}");
        assert_refused(&plan, refusal::MALFORMED);
    }
}

#[test]
fn from_every_call_47() {
    for (what, entries) in [
        ("a label twice", [waiting(1), waiting(1)]),
        ("label 0", [waiting(1), waiting(0)]),
        ("label 65", [waiting(1), waiting(65)]),
        ("a predecessor absent", [waiting(1), waiting(3).after(2)]),
        (
            "a predecessor not lower",
            [waiting(1).after_both(0, 2), waiting(2)],
        ),
        (
            "a delivered entry after itself",
            [entry(2, STAGE_DELIVERED, 6).after(2), waiting(1)],
        ),
    ] {
        println!("{what}");
        assert_refused(&plan_of(&entries), refusal::BAD_LABEL);
    }
}

#[test]
fn offered_the_lowest_that_is_ready() {
    assert_eq!(offer(&diamond()), Ok(Some(1)));
    let two_ready = plan_of(&[waiting(64), waiting(63)]);
    assert_eq!(offer(&two_ready), Ok(Some(63)));
    let delivered = entry(1, STAGE_DELIVERED, 9);
    let after_it = plan_of(&[delivered, waiting(2).after_both(1, 1)]);
    assert_eq!(offer(&after_it), Ok(Some(2)));
}

#[test]
fn none_offered_while_its_predecessor_is_booked_and_at_the_end() {
    let booked = plan_of(&[entry(1, STAGE_BOOKED, 9), waiting(2).after(1)]);
    assert_eq!(offer(&booked), Ok(None));
    let done = plan_of(&[
        entry(1, STAGE_DELIVERED, 9),
        entry(2, STAGE_DELIVERED, 9).after(1),
    ]);
    assert_eq!(offer(&done), Ok(None));
    assert_eq!(offer(&plan_of(&[])), Ok(None));
}

/// The last number booked is 7, and there is no place left.
fn seventh() -> Result<Floor, Refusal> {
    Ok(*two_with(7, 35, 35)?.as_raw())
}

#[test]
fn release_48() -> Result<(), Refusal> {
    let plan = plan_of(&[
        waiting(1),
        waiting(2).after(1),
        entry(3, STAGE_BOOKED, 7),
        entry(4, STAGE_DELIVERED, 8),
    ]);
    let floor = seventh()?;
    for (what, label) in [
        ("waits for another", 2),
        ("booked", 3),
        ("delivered", 4),
        ("in no entry", 5),
        ("in no entry", 0),
        ("not cut to a byte", 257),
    ] {
        println!("{what}");
        assert_unreleased(&plan, &floor, label, refusal::NOT_RELEASED);
    }
    Ok(())
}

#[test]
fn release_4_5_31_and_40_of_its_booking() -> Result<(), Refusal> {
    let on = |tile| plan_of(&[Entry::new(1, tile), waiting(2).after(1)]);
    let floor = seventh()?;
    let stopped = raw::stop(&floor, 0).floor;
    assert_unreleased(&on(2), &floor, 1, refusal::NO_TILE);
    assert_unreleased(&on(1), &floor, 1, refusal::NOT_A_SOURCE);
    assert_unreleased(&on(0), &stopped, 1, refusal::STOPPED);
    assert_unreleased(&on(0), &floor, 1, refusal::NO_PLACE);
    Ok(())
}

#[test]
fn release_33_with_no_number_left_before_40() -> Result<(), Refusal> {
    let plan = plan_of(&[waiting(1), waiting(2).after(1)]);
    let floor = two_with(u32::MAX, 35, 35)?;
    assert_unreleased(&plan, floor.as_raw(), 1, refusal::NUMBER_USED);
    Ok(())
}

#[test]
fn release_30_for_a_booked_number_0_or_above_the_last() -> Result<(), Refusal> {
    let floor = seventh()?;
    let with = |number| plan_of(&[waiting(1), entry(2, STAGE_BOOKED, number)]);
    assert_unreleased(&with(0), &floor, 1, refusal::MALFORMED);
    assert_unreleased(&with(8), &floor, 1, refusal::MALFORMED);
    assert_unreleased(&with(7), &floor, 1, refusal::NO_PLACE);
    // an offer and a report take them
    assert_eq!(offer(&with(0)), Ok(Some(1)));
    let planned = report(&with(8), &Report::default());
    assert_eq!((planned.refusal, planned.plan), (0, with(8)));
    Ok(())
}

#[test]
fn release_30_on_a_malformed_floor() -> Result<(), Refusal> {
    let plan = plan_of(&[waiting(1), entry(2, STAGE_BOOKED, 7)]);
    let mut malformed = seventh()?;
    malformed.settings.gap = 0;
    malformed.settings.rows = 9;
    assert_unreleased(&plan, &malformed, 48, refusal::MALFORMED);
    Ok(())
}

/// A report with nothing but a list for the second hopper.
fn listing(count: u8, numbers: [u32; 4]) -> Report {
    let mut given = Report::default();
    given.deliveries[1] = Delivery { numbers, count };
    given
}

/// The entries at these places are delivered by the report, and nothing else of
/// the plan changes.
#[track_caller]
fn assert_marks(plan: &Plan, given: Report, places: &[usize]) {
    let mut due = *plan;
    for at in places {
        due.entries[*at].stage = STAGE_DELIVERED;
    }
    let planned = report(plan, &given);
    assert_eq!((planned.refusal, planned.plan), (0, due));
}

#[test]
fn report_marks_what_it_lists() {
    let plan = plan_of(&[entry(1, STAGE_BOOKED, 5), entry(2, 9, 6)]);
    assert_marks(&plan, listing(2, [5, 6, 0, 0]), &[0, 1]);
    // not what stands behind its count
    assert_marks(&plan, listing(2, [9, 6, 5, 0]), &[1]);
    assert_marks(&plan, listing(0, [5, 6, 0, 0]), &[]);
}

#[test]
fn report_marks_no_zero_filling_and_no_entry_that_waits() {
    let plan = plan_of(&[entry(1, STAGE_BOOKED, 0), entry(2, STAGE_WAITING, 6)]);
    assert_marks(&plan, listing(3, [6, 7, 8, 0]), &[]);
    assert_marks(&plan, listing(4, [6, 7, 8, 0]), &[0]);
}

#[test]
fn report_of_five_for_a_hopper_is_30() {
    let plan = plan_of(&[entry(1, STAGE_BOOKED, 5), entry(2, 9, 6)]);
    let planned = report(&plan, &listing(5, [5, 6, 0, 0]));
    assert_eq!((planned.refusal, planned.plan), (refusal::MALFORMED, plan));
}
