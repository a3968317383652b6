//! The canister floor of a feed barge, from Rust.
//!
//! A [`Floor`] is booked on, stopped, repaired and run in rounds by its methods.
//! Each makes one call of the proved library. Accepted, the floor is changed in
//! place and the method gives what the call told; refused, the floor is as it
//! was, and the [`Refusal`] says why:
//!
//! ```
//! use ceromby::{tile, Canister, Floor, Refusal, Settings};
//!
//! # fn main() -> Result<(), Refusal> {
//! // Two tiles in a row: fill on tile 0, hopper on tile 1.
//! let mut floor = Floor::fresh(Settings {
//!     columns: 2,
//!     rows: 1,
//!     hoppers: tile(1),
//!     sources: tile(0),
//!     width: 100,
//!     length: 30,
//!     gap: 10,
//!     travel: 20,
//! })?;
//! floor.book(0, Canister::new(5, 0, 0))?;
//! let near = Canister::new(6, 39, 39);
//! assert_eq!(floor.book(0, near), Err(Refusal::TooClose));
//! while floor.aboard() > 0 {
//!     let report = floor.round()?;
//!     for (hopper, numbers) in report.deliveries() {
//!         println!("hopper {hopper}: {numbers:?}");
//!     }
//! }
//! assert_eq!(floor.counters().delivered[0], 1);
//! # Ok(())
//! # }
//! ```
//!
//! # What there is
//!
//! | type | what it is | begins with |
//! |---|---|---|
//! | [`Floor`] | one floor | [`Floor::fresh`], [`Floor::load`] |
//! | [`Report`] | what a round did | [`Floor::round`] |
//! | [`Throughput`] | one hopper's rates over windows of 256 rounds | [`Throughput::new`] |
//! | [`Plan`] | what is to be fed in which order | [`Plan::new`] |
//! | [`Barge`] | four floors with one allowance | [`Barge::new`] |
//! | [`Refusal`] | why a call was refused | |
//!
//! A floor, plan, barge or throughput that a program holds is sound: nothing but
//! an accepted call makes or changes one, and calls are proved to keep them so.
//! So [`Refusal::Malformed`] comes from [`Plan::new`], [`Barge::new`] and the
//! conversions from [`raw`], and at a release, where plan and floor don't belong
//! together. They are no `Copy`: a stop that was made on a copy would be lost.
//!
//! The types are `Send` and `Sync`, and calls may run side by side: the library
//! keeps nothing between them.
//!
//! # Memory
//!
//! A floor takes 8,696 bytes, a barge 34,792; nothing is allocated but by
//! `Floor::to_image`. How much stack a call takes stands in include/ceromby.h
//! (`CEROMBY_STACK`, `CEROMBY_BARGE_STACK`). A floor or barge that lives long is
//! better boxed or in a static than moved through many functions.
//!
//! # Features
//!
//! `std`, on by default, adds `Floor::to_image`. Without it the crate is
//! `no_std` and needs no allocator.
//!
//! # As C gets it
//!
//! [`raw`] has the structs of include/ceromby.h and a function for each call,
//! with whole answers: for comparisons and for programs that lay out memory
//! themselves. `as_raw` and `TryFrom` go between the two.

#![no_std]
#![deny(unsafe_code)]
#![warn(missing_docs)]

#[cfg(feature = "std")]
extern crate std;

mod barge;
mod floor;
mod plan;
pub mod raw;
mod refusal;
mod report;
mod throughput;
mod tile;

pub use barge::Barge;
pub use floor::{Bound, Floor};
pub use plan::{Plan, Released};
pub use raw::barge::{FLOORS, MAX_ALLOWANCE};
pub use raw::plan::{MAX_ENTRIES, MAX_LABEL};
pub use raw::{
    tile, tiles, version, Booking, Canister, Counters, Entry, Fed, Layout, Name, Settings, Stage,
    LONGEST_IMAGE, LONGEST_LIST, LONGEST_PAGE, MAX_HOPPERS, MAX_LAYOUTS, MAX_TILES, PLACES, WINDOW,
};
pub use refusal::Refusal;
pub use report::{Reason, Report};
pub use throughput::Throughput;
pub use tile::{Place, Side, Tile};
