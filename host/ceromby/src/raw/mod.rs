//! What C gets, in Rust: the structs of include/ceromby.h, and a function for
//! each call of the archive. The comparison runs and the timings go through it;
//! a program is better off with [`crate::Floor`] and the others, which can't
//! lose a floor.
//!
//! Nothing is kept between calls: a call gives the floor after it and leaves the
//! one that it was handed. Any bytes may stand in a struct. In every answer
//! `refusal` is 0 for accepted, else one of [`mod@refusal`]; [`write()`],
//! [`page`], [`feed`] and [`plan::offer`] give that as an `Err`. In which order
//! refusals are tested stands in include/ceromby.h.
//!
//! All `unsafe` of the crate is in this module.
#![allow(unsafe_code)]

pub mod barge;
pub mod plan;
mod throughput;
mod types;

pub use crate::refusal::numbers as refusal;
pub use barge::{Barge, BargeAnswer, BargePlaced, BargeRounded};
pub use plan::{Entry, Offered, Plan, Planned, Released, Stage};
pub use throughput::{feed, Fed, Throughput, Told, FED_CLOSED, FED_OPEN, FED_REFUSED, WINDOW};
pub use types::{
    reason, tiles, Answer, Booking, Bounded, Canister, Counters, Delivery, Floor, Layout, Name,
    Placed, Reading, Report, Rounded, Settings, Side, Tile, Written, DISTANCE_NONE, LONGEST_IMAGE,
    LONGEST_LIST, LONGEST_PAGE, MAX_HOPPERS, MAX_LAYOUTS, MAX_TILES, PLACES,
};

/// The archive's functions, declared as the header has them.
mod c {
    use super::{
        Answer, Barge, BargeAnswer, BargePlaced, BargeRounded, Booking, Bounded, Canister, Floor,
        Name, Offered, Placed, Plan, Planned, Reading, Released, Report, Rounded, Settings,
        Throughput, Told, Written,
    };

    extern "C" {
        pub fn ceromby_version() -> u32;
        pub fn ceromby_fresh(settings: Settings) -> Answer;
        pub fn ceromby_book(floor: Floor, tile: u32, canister: Canister) -> Answer;
        pub fn ceromby_book_anywhere(floor: Floor, tile: u32, number: u32) -> Placed;
        pub fn ceromby_book_list(floor: Floor, list: *mut Booking, length: usize) -> Answer;
        pub fn ceromby_stop(floor: Floor, tile: u32) -> Answer;
        pub fn ceromby_repair(floor: Floor, tile: u32) -> Answer;
        pub fn ceromby_keep(floor: Floor, name: Name) -> Answer;
        pub fn ceromby_forget(floor: Floor, name: Name) -> Answer;
        pub fn ceromby_recall(floor: Floor, name: Name) -> Answer;
        pub fn ceromby_round(floor: Floor) -> Rounded;
        pub fn ceromby_bound(floor: Floor) -> Bounded;
        pub fn ceromby_read(floor: Floor, tile: u32) -> Reading;
        pub fn ceromby_load(bytes: *const u8, length: usize) -> Answer;
        pub fn ceromby_write(floor: Floor, buffer: *mut u8, length: usize) -> Written;
        pub fn ceromby_page(floor: Floor, buffer: *mut u8, length: usize) -> Written;
        pub fn ceromby_feed(throughput: Throughput, count: u32) -> Told;
        pub fn ceromby_plan_offer(plan: Plan) -> Offered;
        pub fn ceromby_plan_release(plan: Plan, floor: Floor, label: u32) -> Released;
        pub fn ceromby_plan_report(plan: Plan, report: Report) -> Planned;
        pub fn ceromby_barge_book(
            barge: Barge,
            floor: u32,
            tile: u32,
            canister: Canister,
        ) -> BargeAnswer;
        pub fn ceromby_barge_book_anywhere(
            barge: Barge,
            floor: u32,
            tile: u32,
            number: u32,
        ) -> BargePlaced;
        pub fn ceromby_barge_stop(barge: Barge, floor: u32, tile: u32) -> BargeAnswer;
        pub fn ceromby_barge_repair(barge: Barge, floor: u32, tile: u32) -> BargeAnswer;
        pub fn ceromby_barge_round(barge: Barge, floor: u32) -> BargeRounded;
    }
}

/// The version of the archive, 100 for 0.1.0.
#[inline]
pub fn version() -> u32 {
    // SAFETY: a plain value out.
    unsafe { c::ceromby_version() }
}

/// The set of one tile; empty for a number above 63. Sets are joined by `|`.
pub const fn tile(number: u8) -> u64 {
    match number {
        0..=63 => 1 << number,
        _ => 0,
    }
}

/// A floor without canisters.
#[inline]
pub fn fresh(settings: Settings) -> Answer {
    // SAFETY: plain values in and out.
    unsafe { c::ceromby_fresh(settings) }
}

/// Adds a canister to a tile.
#[inline]
pub fn book(floor: &Floor, tile: u32, canister: Canister) -> Answer {
    // SAFETY: plain values in and out.
    unsafe { c::ceromby_book(*floor, tile, canister) }
}

/// Adds a canister at the place with the lowest b, then the lowest a, that
/// keeps the spacing. [`Placed::place`] tells it.
#[inline]
pub fn book_anywhere(floor: &Floor, tile: u32, number: u32) -> Placed {
    // SAFETY: plain values in and out.
    unsafe { c::ceromby_book_anywhere(*floor, tile, number) }
}

/// Makes the bookings of a list one after the other and gives each entry its
/// own answer. The list itself is refused if it has more than [`LONGEST_LIST`]
/// entries: then none is written. Otherwise the answer's refusal is 0, also
/// where entries were refused.
#[inline]
pub fn book_list(floor: &Floor, list: &mut [Booking]) -> Answer {
    // SAFETY: the pointer and length are those of a slice that outlives the
    // call; the borrow is exclusive.
    unsafe { c::ceromby_book_list(*floor, list.as_mut_ptr(), list.len()) }
}

/// Stops a tile.
#[inline]
pub fn stop(floor: &Floor, tile: u32) -> Answer {
    // SAFETY: plain values in and out.
    unsafe { c::ceromby_stop(*floor, tile) }
}

/// Sets a stopped tile running.
#[inline]
pub fn repair(floor: &Floor, tile: u32) -> Answer {
    // SAFETY: plain values in and out.
    unsafe { c::ceromby_repair(*floor, tile) }
}

/// Keeps the tiles that run under a name: `keep(&floor, "NETS")`.
#[inline]
pub fn keep(floor: &Floor, name: impl Into<Name>) -> Answer {
    // SAFETY: plain values in and out.
    unsafe { c::ceromby_keep(*floor, name.into()) }
}

/// Frees the place of a name.
#[inline]
pub fn forget(floor: &Floor, name: impl Into<Name>) -> Answer {
    // SAFETY: plain values in and out.
    unsafe { c::ceromby_forget(*floor, name.into()) }
}

/// Stops and repairs tiles until just those run that ran when it was kept.
#[inline]
pub fn recall(floor: &Floor, name: impl Into<Name>) -> Answer {
    // SAFETY: plain values in and out.
    unsafe { c::ceromby_recall(*floor, name.into()) }
}

/// One round: route, signal, move.
#[inline]
pub fn round(floor: &Floor) -> Rounded {
    // SAFETY: plain values in and out.
    unsafe { c::ceromby_round(*floor) }
}

/// All that a tile has, its canisters too.
#[inline]
pub fn read(floor: &Floor, tile: u32) -> Reading {
    // SAFETY: plain values in and out.
    unsafe { c::ceromby_read(*floor, tile) }
}

/// After how many rounds without an accepted booking, stop or repair what can
/// be delivered is delivered, and how many canisters that is.
#[inline]
pub fn bound(floor: &Floor) -> Bounded {
    // SAFETY: plain values in and out.
    unsafe { c::ceromby_bound(*floor) }
}

/// The floor of an image. Zero bytes, as in the file of a new controller, load
/// the standard floor, fresh.
#[inline]
pub fn load(bytes: &[u8]) -> Answer {
    // SAFETY: the pointer and length are those of a slice that outlives the call.
    unsafe { c::ceromby_load(bytes.as_ptr(), bytes.len()) }
}

/// Writes an image and leaves the bytes after it. Gives the image's length,
/// which is never 0, or the number of the refusal.
///
/// In C a refused write answers the length 0. A program that stored 0 bytes
/// then would leave an empty file, and that loads as the standard floor: no
/// refusal says that canisters, counters, layouts and settings are gone. So
/// the length comes with an accepted write only; don't make a 0 of a refusal.
#[inline]
pub fn write(floor: &Floor, buffer: &mut [u8]) -> Result<usize, u8> {
    match written(floor, buffer) {
        Written { refusal: 0, length } => Ok(length as usize),
        Written { refusal, .. } => Err(refusal),
    }
}

/// The answer of a write as C gets it.
fn written(floor: &Floor, buffer: &mut [u8]) -> Written {
    // SAFETY: as in `load`; the borrow is exclusive.
    unsafe { c::ceromby_write(*floor, buffer.as_mut_ptr(), buffer.len()) }
}

/// Writes the floor as a page of text, the north row first, and leaves the
/// bytes after it. Gives the page's length, H x (8 x W + 2), or the number of
/// the refusal.
#[inline]
pub fn page(floor: &Floor, buffer: &mut [u8]) -> Result<usize, u8> {
    match paged(floor, buffer) {
        Written { refusal: 0, length } => Ok(length as usize),
        Written { refusal, .. } => Err(refusal),
    }
}

/// The answer of a page as C gets it.
fn paged(floor: &Floor, buffer: &mut [u8]) -> Written {
    // SAFETY: as in `written`.
    unsafe { c::ceromby_page(*floor, buffer.as_mut_ptr(), buffer.len()) }
}

/// The answers of a write and of a page with the length that stands beside a
/// refusal too, that of a feed with the record of a refusal, and that of an
/// offer with its label. The comparison runs look at these.
pub mod as_in_c {
    use super::{Floor, Offered, Plan, Throughput, Told, Written};

    /// What [`super::write`] is made from.
    pub fn write(floor: &Floor, buffer: &mut [u8]) -> Written {
        super::written(floor, buffer)
    }

    /// What [`super::page`] is made from.
    pub fn page(floor: &Floor, buffer: &mut [u8]) -> Written {
        super::paged(floor, buffer)
    }

    /// What [`super::feed`] is made from.
    pub fn feed(throughput: &Throughput, count: u32) -> Told {
        super::throughput::told(throughput, count)
    }

    /// What [`super::plan::offer`] is made from.
    pub fn offer(plan: &Plan) -> Offered {
        super::plan::offered(plan)
    }
}
