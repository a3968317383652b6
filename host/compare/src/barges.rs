//! Barges of four floors (request [13]): calls made by both and held to the
//! lone calls, lists on all floors, and what the runs met of them.

mod counts;
mod makers;

use ::ceromby::raw as ceromby;
use oracle::{Answer, Barge, Floor, PlaceAnswer, Report, RoundAnswer, FLOORS};

use crate::call::{Call, Outcome, Trouble};
use crate::promise::Record;
use crate::tally::Tally;

pub use counts::Counts;
pub use makers::{any_barge, any_call, any_floor_number, damage, full_barge, list_call};

/// A call that names a floor of a barge.
#[derive(Clone, PartialEq, Debug)]
pub struct Named {
    pub barge: Barge,
    pub floor: u32,
    /// Of a lone floor: a booking of either sort, a stop, a repair or a round.
    pub call: Call,
}

/// All that it gives: zeros for what the call hasn't.
#[derive(PartialEq)]
pub struct Given {
    pub refusal: u8,
    pub barge: Barge,
    pub place: (u16, u16),
    pub report: Report,
}

impl Given {
    fn of(refusal: u8, barge: Barge) -> Given {
        Given {
            refusal,
            barge,
            place: (0, 0),
            report: Report::ZERO,
        }
    }

    fn placed(refusal: u8, barge: Barge, a: u16, b: u16) -> Given {
        Given {
            place: (a, b),
            ..Given::of(refusal, barge)
        }
    }

    fn rounded(refusal: u8, barge: Barge, report: Report) -> Given {
        Given {
            report,
            ..Given::of(refusal, barge)
        }
    }
}

impl Named {
    /// Its place among the five calls: book, book anywhere, stop, repair, round.
    pub fn sort(&self) -> usize {
        match self.call {
            Call::Book { .. } => 0,
            Call::BookAnywhere { .. } => 1,
            Call::Stop { .. } => 2,
            Call::Repair { .. } => 3,
            _ => 4,
        }
    }

    fn books(&self) -> bool {
        self.sort() < 2
    }

    pub fn by_library(&self) -> Given {
        let barge = &convert::to_barge(&self.barge);
        let floor = self.floor;
        let answer = match &self.call {
            Call::Book { tile, canister } => {
                let canister = convert::to_canister(canister);
                ceromby::barge::book(barge, floor, *tile, canister)
            }
            Call::BookAnywhere { tile, number } => {
                let answer = ceromby::barge::book_anywhere(barge, floor, *tile, *number);
                let after = convert::from_barge(&answer.barge);
                return Given::placed(answer.refusal, after, answer.a, answer.b);
            }
            Call::Stop { tile } => ceromby::barge::stop(barge, floor, *tile),
            Call::Repair { tile } => ceromby::barge::repair(barge, floor, *tile),
            _ => {
                let answer = ceromby::barge::round(barge, floor);
                let after = convert::from_barge(&answer.barge);
                let report = convert::from_report(&answer.report);
                return Given::rounded(answer.refusal, after, report);
            }
        };
        Given::of(answer.refusal, convert::from_barge(&answer.barge))
    }

    pub fn by_oracle(&self) -> Given {
        let (barge, floor) = (&self.barge, self.floor);
        let answer = match &self.call {
            Call::Book { tile, canister } => oracle::barge_book(barge, floor, *tile, *canister),
            Call::BookAnywhere { tile, number } => {
                let answer = oracle::barge_book_anywhere(barge, floor, *tile, *number);
                return Given::placed(answer.refusal, answer.barge, answer.a, answer.b);
            }
            Call::Stop { tile } => oracle::barge_stop(barge, floor, *tile),
            Call::Repair { tile } => oracle::barge_repair(barge, floor, *tile),
            _ => {
                let answer = oracle::barge_round(barge, floor);
                return Given::rounded(answer.refusal, answer.barge, answer.report);
            }
        };
        Given::of(answer.refusal, answer.barge)
    }

    /// The floor that is named, if there is one.
    fn named(&self) -> Option<(usize, &Floor)> {
        let at = self.floor as usize;
        self.barge.floors.get(at).map(|floor| (at, floor))
    }

    /// What the library's lone call gives, on the floor that is named.
    fn alone(&self) -> Option<Outcome> {
        let (_, floor) = self.named()?;
        Some(crate::call::by_library(floor, &self.call))
    }
}

/// Whether the library finds a floor malformed.
fn is_malformed(floor: &Floor) -> bool {
    ceromby::read(&convert::to_floor(floor), 0).refusal == 30
}

fn allowance_fits(barge: &Barge) -> bool {
    (1..=4_032).contains(&barge.allowance)
}

/// Canisters aboard by the counters of the floors, which are well formed.
fn aboard(barge: &Barge) -> u64 {
    let held = |floor: &Floor| {
        let counters = &floor.counters;
        let gone: u64 = counters.delivered.iter().map(|at| u64::from(*at)).sum();
        u64::from(counters.booked) - gone
    };
    barge.floors.iter().map(held).sum()
}

fn broken<T>(text: String) -> Result<T, Trouble> {
    Err(Trouble::promise("barges", text))
}

/// The refusal that is due before the lone call's own.
fn early(named: &Named) -> Option<u8> {
    let barge = &named.barge;
    match allowance_fits(barge) && !barge.floors.iter().any(is_malformed) {
        false => Some(30),
        true if named.floor > 3 => Some(49),
        true => None,
    }
}

/// Holds a call to the library's lone call on the floor that is named, with 30
/// and 49 before and 50 after it.
pub fn check(named: &Named, given: &Given) -> Result<(), Trouble> {
    let refused = |refusal| Given::of(refusal, named.barge);
    let due = match (early(named), named.alone(), named.named()) {
        (Some(refusal), ..) => refused(refusal),
        (None, Some(lone), Some((at, floor))) => {
            let full = aboard(&named.barge) >= named.barge.allowance.into();
            match lone.refusal() {
                0 if named.books() && full => refused(50),
                0 => {
                    let mut after = named.barge;
                    after.floors[at] = lone.floor_after(&named.call, floor);
                    Given {
                        refusal: 0,
                        barge: after,
                        place: lone.place(),
                        report: lone.report(),
                    }
                }
                refusal => refused(refusal),
            }
        }
        _ => return broken(format!("floor {} is taken", named.floor)),
    };
    let refusals = (given.refusal, due.refusal);
    match *given == due {
        true => Ok(()),
        false if refusals.0 == refusals.1 => broken(format!("{} gives another barge", refusals.0)),
        false => broken(format!("{} in place of {}", refusals.0, refusals.1)),
    }
}

/// A barge from its first call on: demand 3 for each floor by the calls that
/// name it, and the joint total by what was booked and delivered.
pub struct Follow {
    pub barge: Barge,
    records: [Record; FLOORS],
    total: u64,
    /// The floors that refused a booking by 50 since the last delivery.
    waiting: bool,
    /// Bookings accepted after a delivery made room.
    freed: u64,
    calls: u64,
}

impl Follow {
    pub fn of(barge: Barge) -> Follow {
        Follow {
            records: barge.floors.map(|floor| Record::of(&floor)),
            total: aboard(&barge),
            barge,
            waiting: false,
            freed: 0,
            calls: 0,
        }
    }

    /// Takes over what a call gave.
    pub fn note(&mut self, named: &Named, given: &Given, tally: &mut Tally) -> Result<(), Trouble> {
        self.calls += 1;
        self.waiting |= given.refusal == 50;
        if let (0, Some((at, before))) = (given.refusal, named.named()) {
            let lone = as_alone(named, given, given.barge.floors[at]);
            let record = &mut self.records[at];
            record.note(before, &named.call, &lone, tally)?;
            let gone = given.report.delivered().count() as u64;
            self.freed += u64::from(named.books() && self.waiting);
            self.waiting &= !named.books();
            self.total = self.total + u64::from(named.books()) - gone;
        }
        self.barge = given.barge;
        let counts = self.barge.floors.iter().flat_map(|floor| floor.tiles);
        let total: u64 = counts.map(|tile| u64::from(tile.count)).sum();
        match total == self.total {
            true => Ok(()),
            false => broken(format!("{total} aboard, not {}", self.total)),
        }
    }

    /// Demand 3 on each floor.
    pub fn check(&self) -> Result<(), Trouble> {
        let mut floors = self.records.iter().zip(&self.barge.floors);
        floors.try_for_each(|(record, floor)| record.check(floor))
    }

    /// Counts a list that was made to its end.
    pub fn tell(&self, counts: &mut Counts) {
        counts.note_list(self.calls, self.freed);
    }
}

/// An accepted call as one on a lone floor.
fn as_alone(named: &Named, given: &Given, floor: Floor) -> Outcome {
    let refusal = given.refusal;
    match named.call {
        Call::BookAnywhere { .. } => Outcome::Placed(PlaceAnswer {
            refusal,
            floor,
            a: given.place.0,
            b: given.place.1,
        }),
        Call::Round => Outcome::Round(RoundAnswer {
            refusal,
            floor,
            report: given.report,
        }),
        _ => Outcome::Answer(Answer { refusal, floor }),
    }
}
