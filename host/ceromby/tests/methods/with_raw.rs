//! Long random lists of calls: each method gives what C gets, and the floor is
//! the answer's, or as it was.

use ceromby::raw;
use ceromby::{Barge, Booking, Bound, Canister, Floor, Place, Plan, Refusal, Report, Throughput};
use ceromby::{Entry, Fed, Settings};

/// Any numbers (xorshift).
struct Random(u64);

impl Random {
    fn below(&mut self, end: u32) -> u32 {
        self.0 ^= self.0 << 13;
        self.0 ^= self.0 >> 7;
        self.0 ^= self.0 << 17;
        (self.0 >> 33) as u32 % end
    }

    fn settings(&mut self) -> Settings {
        let (columns, rows) = (self.below(4) as u8 + 1, self.below(4) as u8 + 1);
        let tiles = u32::from(columns) * u32::from(rows);
        let hoppers = (0..=self.below(2)).fold(0, |set, _| set | 1 << self.below(tiles));
        Settings {
            columns,
            rows,
            hoppers,
            sources: ((1 << tiles) - 1) & !hoppers,
            width: 100,
            length: 20 + self.below(3) as u16 * 5,
            gap: 10,
            travel: self.below(24) as u16,
        }
    }

    fn canister(&mut self, floor: &Floor) -> Canister {
        let last = floor.counters().last;
        Canister {
            number: (last + self.below(4)).saturating_sub(self.below(2)),
            a: self.below(82) as u16,
            b: self.below(82) as u16,
        }
    }

    fn name(&mut self) -> &'static str {
        ["ALL", "NETS", "A", "ABCDEFGH", "nets", ""][self.below(6) as usize]
    }
}

/// What C gets, as a result.
fn told<T>(refusal: u8, value: T) -> Result<T, Refusal> {
    Refusal::of(refusal).map_or(Ok(value), Err)
}

fn place(a: u16, b: u16) -> Place {
    Place { a, b }
}

/// Held to what C gets of a round.
fn same_report(ours: &Result<Report, Refusal>, refusal: u8, due: &raw::Report) {
    match ours {
        Ok(report) => {
            assert_eq!((refusal, report.as_raw()), (0, due));
            let numbers = due.deliveries.iter().flat_map(|delivery| delivery.used());
            assert!(report.delivered().eq(numbers.copied()));
        }
        Err(refused) => assert_eq!(refused.number(), refusal),
    }
}

fn one_call(random: &mut Random, floor: &mut Floor) -> bool {
    let before = *floor.as_raw();
    let tile = random.below(17);
    let (refusal, due) = match random.below(11) {
        0 | 1 => {
            let canister = random.canister(floor);
            let due = raw::book(&before, tile, canister);
            assert_eq!(floor.book(tile, canister), told(due.refusal, ()));
            (due.refusal, due.floor)
        }
        2 => {
            let number = random.canister(floor).number;
            let due = raw::book_anywhere(&before, tile, number);
            let answer = floor.book_anywhere(tile, number);
            assert_eq!(answer, told(due.refusal, place(due.a, due.b)));
            (due.refusal, due.floor)
        }
        3 => {
            let entry = |random: &mut Random| {
                let canister = random.canister(floor);
                Booking::new(random.below(9), canister)
            };
            let length = [0, 1, 3, 64, 65][random.below(5) as usize];
            let mut list: Vec<_> = (0..length).map(|_| entry(random)).collect();
            let mut other = list.clone();
            let due = raw::book_list(&before, &mut other);
            let answer = floor.book_list(&mut list);
            assert_eq!(list, other);
            let accepted = list.iter().filter(|entry| entry.answer() == Some(Ok(())));
            assert_eq!(answer, told(due.refusal, accepted.count()));
            (due.refusal, due.floor)
        }
        4 => {
            let due = raw::stop(&before, tile);
            assert_eq!(floor.stop(tile), told(due.refusal, ()));
            (due.refusal, due.floor)
        }
        5 => {
            let due = raw::repair(&before, tile);
            assert_eq!(floor.repair(tile), told(due.refusal, ()));
            (due.refusal, due.floor)
        }
        6 => {
            let name = random.name();
            let (due, answer) = match random.below(3) {
                0 => (raw::keep(&before, name), floor.keep(name)),
                1 => (raw::forget(&before, name), floor.forget(name)),
                _ => (raw::recall(&before, name), floor.recall(name)),
            };
            assert_eq!(answer, told(due.refusal, ()));
            (due.refusal, due.floor)
        }
        7 => {
            let due = raw::read(&before, tile);
            let answer = floor.read(tile);
            assert_eq!(answer.map(drop), told(due.refusal, ()));
            let held = answer.iter().flat_map(|tile| tile.canisters());
            assert!(held.eq(due.members.iter().take(due.tile.count.into())));
            let due = raw::bound(&before);
            let bound = Bound {
                rounds: due.rounds,
                connected: due.connected,
                unconnected: due.unconnected,
            };
            assert_eq!(floor.bound(), told(due.refusal, bound));
            assert_eq!(bound.connected + bound.unconnected, floor.aboard());
            (1, before)
        }
        8 => {
            let size = random.below(600) as usize;
            let (mut ours, mut other) = (vec![7; size], vec![7; size]);
            let due = raw::as_in_c::write(&before, &mut other);
            let answer = floor.write(&mut ours);
            assert_eq!(answer, told(due.refusal, due.length as usize));
            assert_eq!(ours, other);
            if let Ok(length) = answer {
                assert_eq!(Floor::load(&ours[..length]).as_ref(), Ok(&*floor));
            }
            let due = raw::as_in_c::page(&before, &mut other);
            assert_eq!(
                floor.page(&mut ours),
                told(due.refusal, due.length as usize)
            );
            assert_eq!(ours, other);
            (1, before)
        }
        _ => {
            let due = raw::round(&before);
            same_report(&floor.round(), due.refusal, &due.report);
            (due.refusal, due.floor)
        }
    };
    assert_eq!(floor.as_raw(), &due);
    refusal == 0
}

#[test]
fn floors() {
    let mut random = Random(0x9e37_79b9_7f4a_7c15);
    let (mut fresh, mut accepted) = (0, 0);
    while fresh < 60 {
        let settings = random.settings();
        let due = raw::fresh(settings);
        let made = Floor::fresh(settings);
        assert_eq!(
            made.clone().map(|floor| *floor.as_raw()),
            told(due.refusal, due.floor)
        );
        let Ok(mut floor) = made else { continue };
        fresh += 1;
        for _ in 0..120 {
            accepted += u32::from(one_call(&mut random, &mut floor));
        }
        assert_eq!(Floor::try_from(*floor.as_raw()), Ok(floor));
    }
    assert!(accepted > 1_000, "{accepted}");
}

#[test]
fn damaged_images() {
    let mut random = Random(7);
    let mut floor = Floor::load(&[]).expect("a floor");
    for number in 1..=9 {
        let _ = floor.book_anywhere(4, number);
        let _ = floor.round();
    }
    let image = floor.to_image().expect("an image");
    for _ in 0..2_000 {
        let mut bytes = image.clone();
        let at = random.below(image.len() as u32) as usize;
        bytes[at] = random.below(256) as u8;
        bytes.truncate(bytes.len() - random.below(2) as usize * random.below(60) as usize);
        let due = raw::load(&bytes);
        let loaded = Floor::load(&bytes);
        assert_eq!(
            loaded.map(|floor| *floor.as_raw()),
            told(due.refusal, due.floor)
        );
    }
}

#[test]
fn malformed_floors() {
    let floor = Floor::load(&[]).expect("a floor");
    let mut spoiled = *floor.as_raw();
    spoiled.counters.booked = 1;
    assert_eq!(Floor::try_from(spoiled), Err(Refusal::Malformed));
    assert_eq!(Floor::try_from(*floor.as_raw()), Ok(floor));
}

#[test]
fn plans_and_throughput() {
    let mut random = Random(11);
    let mut released = 0;
    for _ in 0..40 {
        let mut floor = Floor::load(&[]).expect("a floor");
        let entries: Vec<_> = (1..=12)
            .map(|label| Entry::new(label, 4).after(random.below(label.into()) as u8))
            .collect();
        let mut plan = Plan::new(&entries).expect("a plan");
        let mut record = Throughput::new();
        for _ in 0..60 {
            let (memory, before) = (*plan.as_raw(), *floor.as_raw());
            let due = raw::as_in_c::offer(&memory);
            let label = (due.label != 0).then_some(due.label);
            assert_eq!(plan.offer(), told(due.refusal, label));
            let label = label.unwrap_or(random.below(14) as u8);
            let due = raw::plan::release(&memory, &before, label.into());
            let answer = plan.release(&mut floor, label);
            let number_and_place = answer.map(|released| (released.number, released.place));
            let due_place = (due.number, place(due.a, due.b));
            assert_eq!(number_and_place, told(due.refusal, due_place));
            assert_eq!((plan.as_raw(), floor.as_raw()), (&due.plan, &due.floor));
            released += u32::from(answer.is_ok());
            let report = floor.round().expect("a round");
            let due = raw::plan::report(plan.as_raw(), report.as_raw());
            assert_eq!(plan.report(&report), told(due.refusal, ()));
            assert_eq!(plan.as_raw(), &due.plan);
            let count = report.delivered().count() as u32 + random.below(2) * random.below(6);
            let due = raw::as_in_c::feed(record.as_raw(), count);
            let fed = Fed::Open { rounds: due.rounds };
            assert_eq!(record.feed(count), told(due.refusal, fed));
            assert_eq!(record.as_raw(), &due.throughput);
        }
    }
    assert!(released > 100, "{released}");
}

#[test]
fn barges() {
    let mut random = Random(23);
    let floor = Floor::load(&[]).expect("a floor");
    let mut barge =
        Barge::new([floor.clone(), floor.clone(), floor.clone(), floor], 5).expect("a barge");
    for _ in 0..600 {
        let before = *barge.as_raw();
        let (floor, tile) = (random.below(5), random.below(17));
        let last = before.floors.map(|floor| floor.counters.last);
        let number = last.into_iter().max().unwrap_or(0) + random.below(3);
        let due = match random.below(6) {
            0 => {
                let canister = Canister {
                    number,
                    a: random.below(800) as u16,
                    b: 0,
                };
                let due = raw::barge::book(&before, floor, 4, canister);
                assert_eq!(barge.book(floor, 4, canister), told(due.refusal, ()));
                due.barge
            }
            1 => {
                let due = raw::barge::book_anywhere(&before, floor, 4, number);
                let answer = barge.book_anywhere(floor, 4, number);
                assert_eq!(answer, told(due.refusal, place(due.a, due.b)));
                due.barge
            }
            2 => {
                let due = raw::barge::stop(&before, floor, tile);
                assert_eq!(barge.stop(floor, tile), told(due.refusal, ()));
                due.barge
            }
            3 => {
                let due = raw::barge::repair(&before, floor, tile);
                assert_eq!(barge.repair(floor, tile), told(due.refusal, ()));
                due.barge
            }
            _ => {
                let due = raw::barge::round(&before, floor);
                same_report(&barge.round(floor), due.refusal, &due.report);
                due.barge
            }
        };
        assert_eq!(barge.as_raw(), &due);
    }
    assert!(barge.aboard() > 0);
}
