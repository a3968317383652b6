//! Four floors with one allowance (request [13]).

use crate::anywhere::book_anywhere;
use crate::calls::{book, repair, stop};
use crate::check::well_formed;
use crate::faults::{self, Fault};
use crate::refusal;
use crate::round::round;
use crate::types::{Canister, Floor, Report};

/// "A barge may run four floors".
pub const FLOORS: usize = 4;
/// "a joint allowance of 1 to 4,032 canisters aboard".
pub const MAX_ALLOWANCE: u32 = 4_032;

#[repr(C)]
#[derive(Clone, Copy, PartialEq, Eq, Debug)]
pub struct Barge {
    pub floors: [Floor; FLOORS],
    pub allowance: u32,
}

#[derive(Clone, Copy, PartialEq, Eq, Debug)]
pub struct BargeAnswer {
    pub refusal: u8,
    pub barge: Barge,
}

/// The answer of a booking without a place.
#[derive(Clone, Copy, PartialEq, Eq, Debug)]
pub struct BargePlaceAnswer {
    pub refusal: u8,
    pub barge: Barge,
    pub a: u16,
    pub b: u16,
}

#[derive(Clone, Copy, PartialEq, Eq, Debug)]
pub struct BargeRoundAnswer {
    pub refusal: u8,
    pub barge: Barge,
    pub report: Report,
}

impl Barge {
    /// "the joint total": the canisters on all four floors. Each delivery
    /// lowers it by one, as the canister leaves its floor.
    pub fn total(&self) -> u32 {
        self.floors.iter().map(aboard).sum()
    }

    /// The barge with one floor changed.
    fn with(&self, at: usize, floor: Floor) -> Barge {
        let mut after = *self;
        after.floors[at] = floor;
        after
    }
}

/// The canisters of one floor.
fn aboard(floor: &Floor) -> u32 {
    if faults::on(Fault::DeliveredAboard) {
        return floor.counters.booked;
    }
    floor.tiles.iter().map(|tile| u32::from(tile.count)).sum()
}

/// "Outside that, or with any floor malformed, the barge is 30."
fn sound(barge: &Barge, named: u32) -> bool {
    let least = u32::from(!faults::on(Fault::NoAllowance));
    let most = MAX_ALLOWANCE + u32::from(faults::on(Fault::LargerAllowance));
    let over = faults::on(Fault::OverloadRefused) && barge.total() > barge.allowance;
    let floors = match usize::try_from(named) {
        Ok(named) if faults::on(Fault::NamedFloorAlone) && named < FLOORS => {
            &barge.floors[named..=named]
        }
        _ => &barge.floors[..],
    };
    (least..=most).contains(&barge.allowance) && floors.iter().all(well_formed) && !over
}

/// The named floor, or 30 or 49: "49, floor number not 0 to 3, after 30".
fn named(barge: &Barge, floor: u32) -> Result<usize, u8> {
    let floor = match faults::on(Fault::FloorCut) {
        true => floor & 255,
        false => floor,
    };
    if faults::on(Fault::FloorFirst) && floor >= FLOORS as u32 {
        Err(refusal::NO_FLOOR)
    } else if !sound(barge, floor) {
        Err(refusal::MALFORMED)
    } else if floor >= FLOORS as u32 {
        Err(refusal::NO_FLOOR)
    } else {
        Ok(floor as usize)
    }
}

/// "50, the total is at or above the allowance".
fn overloaded(barge: &Barge, named: usize) -> bool {
    let total = match faults::on(Fault::FloorsTotal) {
        true => aboard(&barge.floors[named]),
        false => barge.total(),
    };
    match faults::on(Fault::AllowanceLate) {
        true => total > barge.allowance,
        false => total >= barge.allowance,
    }
}

/// What a lone call answers with 50 put last: "checked last in a booking of
/// either sort".
fn with_allowance(barge: &Barge, named: usize, lone: u8) -> u8 {
    let early = faults::on(Fault::AllowanceFirst)
        && [refusal::TOO_CLOSE, refusal::NO_PLACE].contains(&lone);
    match lone == refusal::ACCEPTED || early {
        true if overloaded(barge, named) => refusal::OVERLOADED,
        _ => lone,
    }
}

/// "Bookings of either sort, stops, repairs and rounds each name one floor, do
/// there what they do on a lone one, but for 50, and leave the other three."
pub fn barge_book(barge: &Barge, floor: u32, tile: u32, canister: Canister) -> BargeAnswer {
    changed(barge, floor, |at| {
        let lone = book(&barge.floors[at], tile, canister);
        (with_allowance(barge, at, lone.refusal), lone.floor)
    })
}

pub fn barge_book_anywhere(barge: &Barge, floor: u32, tile: u32, number: u32) -> BargePlaceAnswer {
    let refused = |refusal, a, b| BargePlaceAnswer {
        refusal,
        barge: *barge,
        a,
        b,
    };
    let at = match named(barge, floor) {
        Ok(at) => at,
        Err(refusal) => return refused(refusal, 0, 0),
    };
    let lone = book_anywhere(&barge.floors[at], tile, number);
    let refusal = match faults::on(Fault::AnywhereFree) {
        true => lone.refusal,
        false => with_allowance(barge, at, lone.refusal),
    };
    match refusal {
        refusal::ACCEPTED => BargePlaceAnswer {
            refusal,
            barge: barge.with(at, lone.floor),
            a: lone.a,
            b: lone.b,
        },
        _ if faults::on(Fault::PlaceBeyond) => refused(refusal, lone.a, lone.b),
        _ => refused(refusal, 0, 0),
    }
}

pub fn barge_stop(barge: &Barge, floor: u32, tile: u32) -> BargeAnswer {
    changed(barge, floor, |at| {
        let lone = stop(&barge.floors[at], tile);
        let refusal = match faults::on(Fault::StopLoaded) {
            true => with_allowance(barge, at, lone.refusal),
            false => lone.refusal,
        };
        (refusal, lone.floor)
    })
}

pub fn barge_repair(barge: &Barge, floor: u32, tile: u32) -> BargeAnswer {
    changed(barge, floor, |at| {
        let lone = repair(&barge.floors[at], tile);
        (lone.refusal, lone.floor)
    })
}

/// A call that answers a refusal and the named floor.
fn changed(barge: &Barge, floor: u32, call: impl Fn(usize) -> (u8, Floor)) -> BargeAnswer {
    let made = named(barge, floor).map(|at| (at, call(at)));
    match made {
        Ok((at, (refusal::ACCEPTED, after))) => BargeAnswer {
            refusal: refusal::ACCEPTED,
            barge: barge.with(at, after),
        },
        Ok((_, (refusal, _))) | Err(refusal) => BargeAnswer {
            refusal,
            barge: *barge,
        },
    }
}

/// "On a sound barge a round's outcome on a floor depends on that floor's state
/// only".
pub fn barge_round(barge: &Barge, floor: u32) -> BargeRoundAnswer {
    let at = match named(barge, floor) {
        Ok(at) => at,
        Err(refusal) => {
            return BargeRoundAnswer {
                refusal,
                barge: *barge,
                report: Report::ZERO,
            }
        }
    };
    let lone = round(&barge.floors[at]);
    let mut after = barge.with(at, lone.floor);
    if faults::on(Fault::OtherFloorMoves) {
        let other = (at + 1) % FLOORS;
        after = after.with(other, round(&barge.floors[other]).floor);
    }
    BargeRoundAnswer {
        refusal: lone.refusal,
        barge: after,
        report: lone.report,
    }
}
