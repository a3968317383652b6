//! Plans (request [12]).

use crate::common::*;
use oracle::random::{self, Rng};
use oracle::{
    book_anywhere, offer, release, report, round, well_formed, Delivery, Entry, Floor, Plan,
    Report, Settings, Stage, BOOKED, DELIVERED, MAX_ENTRIES, WAITING,
};

/// An entry for tile 0 that waits.
fn waits(label: u8, first: u8, second: u8) -> Entry {
    Entry {
        tile: 0,
        number: 0,
        label,
        first,
        second,
        stage: WAITING,
    }
}

fn booked_under(entry: Entry, number: u32) -> Entry {
    Entry {
        number,
        stage: BOOKED,
        ..entry
    }
}

fn gone(entry: Entry) -> Entry {
    Entry {
        stage: DELIVERED,
        ..entry
    }
}

fn plan(entries: &[Entry]) -> Plan {
    let mut plan = Plan {
        count: entries.len() as u32,
        ..Plan::EMPTY
    };
    plan.entries[..entries.len()].copy_from_slice(entries);
    plan
}

/// A report that lists numbers for each hopper.
fn lists(hoppers: &[&[u32]]) -> Report {
    let mut report = Report::ZERO;
    for (delivery, numbers) in report.deliveries.iter_mut().zip(hoppers) {
        delivery.numbers[..numbers.len()].copy_from_slice(numbers);
        delivery.count = numbers.len() as u8;
    }
    report
}

fn offered(plan: &Plan) -> u8 {
    let answer = offer(plan);
    assert_eq!(answer.refusal, 0);
    answer.label
}

/// The refusal of an offer, with the label 0 beside it.
fn offer_refusal(plan: &Plan) -> u8 {
    let answer = offer(plan);
    assert_eq!(answer.label, 0);
    answer.refusal
}

/// The refusal of a report, with the same plan beside it.
fn report_refusal(plan: &Plan, told: &Report) -> u8 {
    let answer = report(plan, told);
    assert_ne!(answer.refusal, 0);
    assert_eq!(answer.plan, *plan);
    answer.refusal
}

/// The refusal of a release, with the same floor and plan beside it.
fn release_refusal(plan: &Plan, floor: &Floor, label: u32) -> u8 {
    let answer = release(plan, floor, label);
    assert_ne!(answer.refusal, 0);
    assert_eq!((answer.floor, answer.plan), (*floor, *plan));
    assert_eq!((answer.number, answer.a, answer.b), (0, 0, 0));
    answer.refusal
}

/// A plan that every call refuses by one number.
fn refused(plan: &Plan, refusal: u8) {
    let floor = booked(&line(2, 1), 0, 9, 0, 0);
    assert_eq!(offer_refusal(plan), refusal, "{:?}", plan.used());
    assert_eq!(report_refusal(plan, &Report::ZERO), refusal);
    assert_eq!(release_refusal(plan, &floor, 1), refusal);
}

fn accepted(plan: &Plan) {
    assert_eq!(offer(plan).refusal, 0, "{:?}", plan.used());
    let answer = report(plan, &Report::ZERO);
    assert_eq!((answer.refusal, answer.plan), (0, *plan));
}

#[test]
fn the_lowest_label_that_can_go() {
    assert_eq!(offered(&Plan::EMPTY), 0);
    let chain = [waits(7, 3, 0), waits(3, 0, 2), waits(2, 0, 0)];
    assert_eq!(offered(&plan(&chain)), 2);
    let [last, middle, first] = chain;
    let under = booked_under(first, 5);
    assert_eq!(offered(&plan(&[last, middle, under])), 0);
    assert_eq!(offered(&plan(&[last, middle, gone(first)])), 3);
    let under = booked_under(middle, 5);
    assert_eq!(offered(&plan(&[last, under, gone(first)])), 0);
    assert_eq!(offered(&plan(&[last, gone(middle), gone(first)])), 7);
    let all = [gone(last), gone(middle), gone(first)];
    assert_eq!(offered(&plan(&all)), 0);
    let apart = [waits(64, 0, 0), waits(9, 0, 0), waits(40, 0, 0)];
    assert_eq!(offered(&plan(&apart)), 9);
}

#[test]
fn both_predecessors_must_be_delivered() {
    let (one, two) = (waits(1, 0, 0), waits(2, 0, 0));
    let last = waits(3, 1, 2);
    let under = booked_under(two, 4);
    assert_eq!(offered(&plan(&[gone(one), under, last])), 0);
    assert_eq!(offered(&plan(&[gone(one), gone(two), last])), 3);
    let twice = waits(3, 1, 1);
    assert_eq!(offered(&plan(&[gone(one), twice])), 3);
    assert_eq!(offered(&plan(&[booked_under(one, 1), twice])), 0);
}

#[test]
fn a_release_books_as_in_1() {
    let floor = booked(&line(2, 1), 0, 7, 0, 0);
    let two = plan(&[waits(4, 0, 0), waits(9, 0, 0)]);
    let answer = release(&two, &floor, 9);
    let there = book_anywhere(&floor, 0, 8);
    assert_eq!((answer.refusal, answer.floor), (0, there.floor));
    assert_eq!((answer.number, answer.a, answer.b), (8, there.a, there.b));
    let after = plan(&[waits(4, 0, 0), booked_under(waits(9, 0, 0), 8)]);
    assert_eq!(answer.plan, after);
    assert_eq!(release_refusal(&after, &answer.floor, 9), 48);
    let next = release(&after, &answer.floor, 4);
    assert_eq!((next.refusal, next.number), (0, 9));
    let told = report(&next.plan, &lists(&[&[9]])).plan;
    let due = [
        gone(booked_under(waits(4, 0, 0), 9)),
        booked_under(waits(9, 0, 0), 8),
    ];
    assert_eq!(told, plan(&due));
    assert_eq!(release_refusal(&told, &next.floor, 4), 48);
}

#[test]
fn labels_that_are_not_released() {
    let floor = line(2, 1);
    let chain = plan(&[waits(5, 0, 0), waits(64, 5, 0)]);
    for label in [0, 1, 64, 65, 255, 256, 256 + 5, u32::MAX] {
        assert_eq!(release_refusal(&chain, &floor, label), 48);
    }
    assert_eq!(release(&chain, &floor, 5).refusal, 0);
    assert_eq!(release_refusal(&Plan::EMPTY, &floor, 0), 48);
}

/// Tile 2 is the hopper, tile 1 no source, tile 0 has no place left.
fn full() -> Floor {
    let settings = Settings {
        sources: 0b1001,
        ..plain(4, 1, 2)
    };
    booked(&made(settings), 0, 7, 35, 35)
}

fn on_tile(tile: u32) -> Plan {
    plan(&[Entry {
        tile,
        ..waits(1, 0, 0)
    }])
}

#[test]
fn a_release_is_refused_in_order() {
    let floor = full();
    let halted = stopped(&floor, 0);
    for tile in [4, 64, 256, u32::MAX] {
        assert_eq!(release_refusal(&on_tile(tile), &floor, 1), 4);
        assert_eq!(release_refusal(&on_tile(tile), &floor, 2), 48);
        assert_eq!(release_refusal(&on_tile(tile), &malformed(), 2), 30);
    }
    for tile in [1, 2] {
        assert_eq!(release_refusal(&on_tile(tile), &floor, 1), 5);
    }
    assert_eq!(release_refusal(&on_tile(0), &halted, 1), 31);
    assert_eq!(release_refusal(&on_tile(0), &floor, 1), 40);
    assert_eq!(release(&on_tile(3), &floor, 1).refusal, 0);
}

#[test]
fn no_number_is_left() {
    let last = booked(&line(2, 1), 0, u32::MAX, 35, 35);
    assert_eq!(release_refusal(&on_tile(0), &last, 1), 33);
    assert_eq!(release_refusal(&on_tile(0), &stopped(&last, 0), 1), 31);
    assert_eq!(release_refusal(&on_tile(1), &last, 1), 5);
    assert_eq!(release_refusal(&on_tile(2), &last, 1), 4);
    let before = booked(&line(2, 1), 0, u32::MAX - 1, 0, 0);
    let answer = release(&on_tile(0), &before, 1);
    assert_eq!((answer.refusal, answer.number), (0, u32::MAX));
}

#[test]
fn plans_that_are_30() {
    let (one, two) = (waits(1, 0, 0), waits(2, 1, 0));
    refused(&plan(&[one, booked_under(two, 3)]), 30);
    refused(&plan(&[one, gone(two)]), 30);
    refused(&plan(&[booked_under(one, 2), booked_under(two, 3)]), 30);
    refused(&plan(&[booked_under(one, 2), gone(two)]), 30);
    refused(
        &plan(&[gone(one), booked_under(waits(2, 0, 0), 3), {
            booked_under(waits(4, 0, 0), 3)
        }]),
        30,
    );
    accepted(&plan(&[gone(one), booked_under(two, 3)]));
    accepted(&plan(&[gone(booked_under(one, 3)), booked_under(two, 3)]));
    for count in [65, 255, 256, 1 << 16, u32::MAX] {
        refused(
            &Plan {
                count,
                ..Plan::EMPTY
            },
            30,
        );
        let bad = plan(&[waits(0, 0, 0)]);
        refused(&Plan { count, ..bad }, 30);
    }
}

#[test]
fn repeated_labels_on_a_delivered_and_an_undelivered_entry() {
    let (one, three) = (waits(1, 0, 0), waits(3, 1, 0));
    refused(&plan(&[gone(one), one, gone(three)]), 30);
    refused(&plan(&[one, gone(one), gone(three)]), 30);
    refused(&plan(&[gone(one), gone(one), gone(three)]), 47);
    refused(&plan(&[gone(one), one, three]), 47);
}

#[test]
fn plans_that_are_47() {
    let one = waits(1, 0, 0);
    refused(&plan(&[waits(0, 0, 0)]), 47);
    refused(&plan(&[waits(65, 0, 0)]), 47);
    refused(&plan(&[waits(255, 0, 0)]), 47);
    refused(&plan(&[one, one]), 47);
    refused(&plan(&[one, waits(4, 3, 0)]), 47);
    refused(&plan(&[one, waits(4, 1, 3)]), 47);
    refused(&plan(&[waits(4, 0, 200)]), 47);
    refused(&plan(&[waits(4, 4, 0)]), 47);
    refused(&plan(&[waits(4, 0, 5), waits(5, 0, 0)]), 47);
    accepted(&plan(&[one, waits(4, 1, 1)]));
}

/// An entry that names itself: booked it is itself undelivered.
#[test]
fn its_own_predecessor() {
    let itself = waits(4, 4, 0);
    refused(&plan(&[itself]), 47);
    refused(&plan(&[booked_under(itself, 3)]), 30);
    refused(&plan(&[gone(itself)]), 47);
}

/// Nothing is a predecessor's entry where the label 0 means none.
#[test]
fn no_predecessor_is_no_label() {
    let zero = waits(0, 0, 0);
    refused(&plan(&[zero, gone(waits(1, 0, 0))]), 47);
    refused(&plan(&[booked_under(zero, 1), gone(waits(1, 0, 0))]), 47);
}

#[test]
fn booked_numbers_at_release() {
    let floor = booked(&line(2, 1), 0, 7, 0, 0);
    let with = |number| plan(&[waits(1, 0, 0), booked_under(waits(2, 0, 0), number)]);
    for number in [0, 8, u32::MAX] {
        assert_eq!(release_refusal(&with(number), &floor, 1), 30);
        accepted(&with(number));
    }
    for number in [1, 7] {
        assert_eq!(release(&with(number), &floor, 1).refusal, 0);
    }
    let free = plan(&[waits(1, 0, 0), gone(booked_under(waits(2, 0, 0), 8))]);
    assert_eq!(release(&free, &floor, 1).refusal, 0);
}

#[test]
fn every_other_stage_byte_is_booked() {
    let floor = booked(&line(2, 1), 0, 7, 0, 0);
    for stage in (3..=255).chain([BOOKED]) {
        let entry = Entry {
            number: 5,
            stage,
            ..waits(1, 0, 0)
        };
        assert_eq!(entry.stage(), Stage::Booked(5));
        let held = plan(&[entry, waits(2, 1, 0)]);
        assert_eq!(offered(&held), 0);
        assert_eq!(release_refusal(&held, &floor, 1), 48);
        assert_eq!(release_refusal(&held, &floor, 2), 48);
        assert_eq!(report(&held, &lists(&[&[6]])).plan, held);
        let told = report(&held, &lists(&[&[5]])).plan;
        assert_eq!(told, plan(&[gone(entry), waits(2, 1, 0)]));
    }
}

#[test]
fn all_hoppers_lists_count() {
    let entry = |at: u8| booked_under(waits(at, 0, 0), at.into());
    let six = plan(&[1, 2, 3, 4, 5, 6].map(entry));
    let told = lists(&[&[5], &[], &[9, 2], &[6]]);
    let mut due = six;
    for at in [4, 1, 5] {
        due.entries[at].stage = DELIVERED;
    }
    assert_eq!(report(&six, &told).plan, due);
}

#[test]
fn the_filling_is_not_listed() {
    let zero = plan(&[booked_under(waits(1, 0, 0), 0)]);
    assert_eq!(report(&zero, &Report::ZERO).plan, zero);
    assert_eq!(report(&zero, &lists(&[&[3], &[1]])).plan, zero);
    let told = report(&zero, &lists(&[&[], &[3, 0]])).plan;
    assert_eq!(told, plan(&[gone(zero.entries[0])]));
    let mut beyond = lists(&[&[], &[8, 9]]);
    beyond.deliveries[1].count = 1;
    let nine = plan(&[booked_under(waits(1, 0, 0), 9)]);
    assert_eq!(report(&nine, &beyond).plan, nine);
}

#[test]
fn reports_that_are_30() {
    let sound = plan(&[waits(1, 0, 0)]);
    let bad = plan(&[waits(65, 0, 0)]);
    for rank in 0..4 {
        for count in [5, 255] {
            let mut told = Report::ZERO;
            told.deliveries[rank] = Delivery {
                count,
                ..Delivery::ZERO
            };
            assert_eq!(report_refusal(&sound, &told), 30);
            assert_eq!(report_refusal(&bad, &told), 30);
        }
    }
    assert_eq!(report_refusal(&bad, &Report::ZERO), 47);
}

#[test]
fn entries_past_the_count_are_ignored_and_handed_back() {
    let floor = line(2, 1);
    let mut held = plan(&[waits(1, 0, 0)]);
    held.entries[1..].fill(Entry {
        tile: 9,
        number: 1,
        label: 1,
        first: 200,
        second: 1,
        stage: 7,
    });
    assert_eq!(offered(&held), 1);
    let answer = release(&held, &floor, 1);
    assert_eq!(answer.refusal, 0);
    assert_eq!(answer.plan.entries[1..], held.entries[1..]);
    let told = report(&answer.plan, &lists(&[&[1]])).plan;
    assert_eq!(told.entries[0].stage(), Stage::Delivered);
    assert_eq!(told.entries[1..], held.entries[1..]);
}

#[test]
fn sixty_four_entries() {
    let label = |at: usize| at as u8 + 1;
    let entries: Vec<Entry> = (0..MAX_ENTRIES)
        .map(|at| waits(label(at), at as u8, 0))
        .collect();
    let mut held = plan(&entries);
    let mut floor = line(2, 1);
    for at in 0..MAX_ENTRIES {
        assert_eq!(offered(&held), label(at));
        let answer = release(&held, &floor, label(at).into());
        assert_eq!((answer.refusal, answer.number), (0, at as u32 + 1));
        (held, floor) = (answer.plan, answer.floor);
        assert_eq!(offered(&held), 0);
        while held.entries[at].stage() != Stage::Delivered {
            let turned = turned(&floor);
            floor = turned.floor;
            held = report(&held, &turned.report).plan;
        }
    }
    assert_eq!((offered(&held), floor.counters.delivered[0]), (0, 64));
}

/// A plan with distinct labels in any order, with lower predecessors.
fn random_plan(rng: &mut Rng, tiles: &[u32]) -> Plan {
    let mut labels: Vec<u8> = (1..=64).filter(|_| rng.chance(1, 3)).collect();
    for end in (1..labels.len()).rev() {
        labels.swap(end, rng.below(end as u64 + 1) as usize);
    }
    let entries: Vec<Entry> = labels
        .iter()
        .map(|label| {
            let lower: Vec<u8> = labels.iter().copied().filter(|at| at < label).collect();
            let mut before = || match lower.is_empty() || rng.chance(1, 3) {
                true => 0,
                false => rng.pick(&lower),
            };
            let (first, second) = (before(), before());
            Entry {
                tile: rng.pick(tiles),
                ..waits(*label, first, second)
            }
        })
        .collect();
    plan(&entries)
}

/// "If all began waiting and each call gets the plan the last one gave, no
/// planned canister is booked before its predecessors were reported. While a
/// label waits and no booked one is undelivered, one is offered."
#[test]
fn whole_plans() {
    let mut rng = Rng::new(121);
    let (mut ended, mut released) = (0, 0);
    for _ in 0..200 {
        let mut floor = random::floor(&mut rng);
        let settings = floor.settings;
        let fill = |tile: &u32| settings.is_source(*tile as usize);
        let tiles: Vec<u32> = (0..64).filter(fill).collect();
        if tiles.is_empty() {
            continue;
        }
        let mut held = random_plan(&mut rng, &tiles);
        let mut reported = Vec::new();
        for _ in 0..400 {
            let label = offered(&held);
            let waiting = held.used().iter().any(|at| at.stage() == Stage::Waiting);
            let under = |at: &Entry| matches!(at.stage(), Stage::Booked(_));
            let under = held.used().iter().any(under);
            assert!(label != 0 || !waiting || under);
            let answer = release(&held, &floor, label.into());
            if answer.refusal == 0 {
                let mut entries = held.used().iter();
                let entry = entries.find(|at| at.label == label).expect("in the plan");
                assert!(entry.predecessors().all(|at| reported.contains(&at)));
                assert_eq!(answer.number, floor.counters.last + 1);
                released += 1;
            }
            assert!(well_formed(&answer.floor));
            let turned = round(&answer.floor);
            let told = report(&answer.plan, &turned.report);
            assert_eq!((turned.refusal, told.refusal), (0, 0));
            for (before, after) in answer.plan.used().iter().zip(told.plan.used()) {
                if before != after {
                    let Stage::Booked(number) = before.stage() else {
                        panic!("{before:?} became {after:?}");
                    };
                    assert!(turned.report.delivered().any(|at| at == number));
                    reported.push(after.label);
                }
            }
            (held, floor) = (told.plan, turned.floor);
        }
        let all = held.used().iter();
        ended += usize::from(all.map(Entry::stage).all(|at| at == Stage::Delivered));
    }
    assert!(ended > 20 && released > 500, "{ended} {released}");
}
