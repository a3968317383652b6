//! Lists of bookings in one call.

use crate::common::*;
use oracle::random::{self, Rng};
use oracle::{book, book_list, well_formed, Booking, Floor, Settings, LONGEST_LIST};

/// An answer that no call gives.
const UNTOUCHED: u8 = 0xa5;

fn entry(tile: u32, number: u32, a: u16, b: u16) -> Booking {
    Booking {
        tile,
        canister: canister(number, a, b),
        answer: UNTOUCHED,
    }
}

fn answers(list: &[Booking]) -> Vec<u8> {
    list.iter().map(|entry| entry.answer).collect()
}

/// The same bookings made singly in list order.
fn singly(floor: &Floor, list: &[Booking]) -> (Floor, Vec<u8>) {
    let mut floor = *floor;
    let mut answers = Vec::new();
    for entry in list {
        let answer = book(&floor, entry.tile, entry.canister);
        answers.push(answer.refusal);
        floor = answer.floor;
    }
    (floor, answers)
}

#[test]
fn each_entry_has_its_own_answer() {
    let floor = booked(&line(3, 2), 0, 7, 0, 0);
    let mut list = [
        entry(0, 9, 40, 0),
        entry(0, 10, 41, 1),
        entry(1, 8, 0, 0),
        entry(1, 10, 0, 0),
        entry(1, 0, 50, 50),
        entry(9, 11, 0, 0),
        entry(2, 11, 0, 0),
        entry(1, 11, 71, 0),
        entry(1, 11, 70, 70),
    ];
    let handed = list;
    let answer = book_list(&floor, &mut list);
    assert_eq!(answer.refusal, 0);
    assert_eq!(answers(&list), [0, 34, 33, 0, 6, 4, 5, 7, 0]);
    let mut after = booked(&floor, 0, 9, 40, 0);
    after = booked(&after, 1, 10, 0, 0);
    after = booked(&after, 1, 11, 70, 70);
    assert_eq!(answer.floor, after);
    for (entry, handed) in list.iter().zip(handed) {
        let answer = entry.answer;
        assert_eq!(*entry, Booking { answer, ..handed });
    }
}

#[test]
fn an_empty_list_changes_nothing() {
    for floor in [line(2, 1), malformed(), Floor::ZERO] {
        let answer = book_list(&floor, &mut []);
        assert_eq!((answer.refusal, answer.floor), (0, floor));
    }
}

#[test]
fn on_a_malformed_floor_every_entry_receives_30() {
    let floor = malformed();
    let mut list = [entry(0, 1, 0, 0), entry(99, 0, 71, 0), entry(1, 2, 0, 0)];
    let answer = book_list(&floor, &mut list);
    assert_eq!((answer.refusal, answer.floor), (0, floor));
    assert_eq!(answers(&list), [30; 3]);
}

/// A floor with room for more than 64 canisters, and bookings for it.
fn roomy(length: usize) -> (Floor, Vec<Booking>) {
    let floor = made(Settings {
        length: 10,
        gap: 20,
        travel: 9,
        ..plain(8, 8, 63)
    });
    let list = (0..length as u32).map(|at| entry(at % 63, at + 1, (at / 63 % 4 * 30) as u16, 0));
    (floor, list.collect())
}

#[test]
fn at_most_64_entries() {
    for length in [1, 63, LONGEST_LIST] {
        let (floor, mut list) = roomy(length);
        let (after, _) = singly(&floor, &list);
        let answer = book_list(&floor, &mut list);
        assert_eq!((answer.refusal, answer.floor), (0, after));
        assert_eq!(answers(&list), vec![0; length]);
        assert_eq!(after.counters.booked, length as u32);
    }
    for length in [LONGEST_LIST + 1, 1_000] {
        let (floor, mut list) = roomy(length);
        for floor in [floor, malformed(), Floor::ZERO] {
            let answer = book_list(&floor, &mut list);
            assert_eq!((answer.refusal, answer.floor), (42, floor));
            assert_eq!(answers(&list), vec![UNTOUCHED; length]);
        }
    }
}

#[test]
fn the_same_as_single_bookings() {
    let mut rng = Rng::new(111);
    let mut seen = [0; 256];
    for _ in 0..3_000 {
        let floor = match rng.below(8) {
            0 => random::nearly_sound_floor(&mut rng),
            _ => random::floor(&mut rng),
        };
        let last = floor.counters.last;
        let mut list: Vec<Booking> = (0..rng.below(12))
            .map(|at| {
                let number = match rng.below(6) {
                    0 => rng.below(3) as u32,
                    1 => last,
                    _ => last.saturating_add(at as u32 + 1),
                };
                let mut place = || rng.range(0, u64::from(floor.settings.span()) + 1) as u16;
                let (a, b) = (place(), place());
                let tile = random::any_tile(&mut rng, &floor);
                entry(tile, number, a, b)
            })
            .collect();
        let (after, due) = singly(&floor, &list);
        let answer = book_list(&floor, &mut list);
        assert_eq!((answer.refusal, answer.floor), (0, after));
        assert_eq!(answers(&list), due);
        assert_eq!(well_formed(&floor), well_formed(&after));
        for answer in due {
            seen[usize::from(answer)] += 1;
        }
    }
    for answer in [0, 30, 4, 5, 6, 7, 31, 33, 34] {
        assert!(seen[answer] > 20, "{answer}: {}", seen[answer]);
    }
}
