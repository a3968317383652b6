//! A second implementation of the canister floor, written from the paper alone.
//!
//! The crate is `no_std` without `alloc`, so no call can use the heap.

#![no_std]
#![forbid(unsafe_code)]

mod anywhere;
mod barge;
mod bound;
mod calls;
mod check;
#[cfg(feature = "faults")]
pub mod faults;
#[cfg(not(feature = "faults"))]
mod faults;
mod grid;
mod image;
mod layouts;
mod list;
mod page;
mod plan;
pub mod random;
pub mod reason;
pub mod refusal;
mod round;
mod throughput;
mod types;

pub use anywhere::{book_anywhere, place_by_candidates, place_by_pairs};
pub use barge::{
    barge_book, barge_book_anywhere, barge_repair, barge_round, barge_stop, Barge, BargeAnswer,
    BargePlaceAnswer, BargeRoundAnswer, FLOORS, MAX_ALLOWANCE,
};
pub use bound::{bound, Bounded};
pub use calls::{book, fresh, read, repair, stop};
pub use check::{settings_refusal, well_formed};
pub use grid::{Grid, Side, Spot};
pub use image::{load, write, LONGEST_IMAGE, STANDARD};
pub use layouts::{forget, keep, name, recall};
pub use list::{book_list, LONGEST_LIST};
pub use page::{page, LONGEST_PAGE};
pub use plan::{
    offer, release, report, Entry, OfferAnswer, Plan, PlanAnswer, ReleaseAnswer, Stage, BOOKED,
    DELIVERED, MAX_ENTRIES, MAX_LABEL, WAITING,
};
pub use round::round;
pub use throughput::{deliveries_of, feed, Fed, FeedAnswer, Throughput, WINDOW};
pub use types::{
    only, Answer, Booking, Canister, Counters, Delivery, Floor, Layout, PlaceAnswer, Reading,
    Report, RoundAnswer, Settings, Tile, WriteAnswer, MAX_HOPPERS, MAX_LAYOUTS, MAX_TILES, NONE,
    NO_SIDE, PLACES,
};
