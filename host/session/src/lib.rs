//! What the program `ceromby` and its store keep between two calls: one floor at
//! hand, a plan for it, and beside it a barge with room for four floors.
//!
//! A [`Session`] changes by [`Session::call`] alone. Each call is made by the
//! proved library through its safe binding. Accepted, it gives an [`Answer`];
//! otherwise the session is as it was, and the [`Denial`] says why.
//!
//! ```
//! use ceromby::{Refusal, Settings, tile};
//! use ceromby_session::{Answer, Call, Denial, Session};
//!
//! # fn main() -> Result<(), Denial> {
//! let mut session = Session::new();
//! assert_eq!(session.call(&Call::Round), Err(Denial::NoFloor));
//! session.call(&Call::Fresh {
//!     settings: Settings {
//!         columns: 2,
//!         rows: 1,
//!         hoppers: tile(1),
//!         sources: tile(0),
//!         width: 100,
//!         length: 30,
//!         gap: 10,
//!         travel: 20,
//!     },
//!     give_up: false,
//! })?;
//! session.call(&Call::BookAnywhere { tile: 0, number: 5 })?;
//! let Answer::Round(round) = session.call(&Call::Round)? else { unreachable!() };
//! assert_eq!((round.number, round.report.delivered().count()), (1, 0));
//! let again = session.call(&Call::BookAnywhere { tile: 0, number: 5 });
//! assert_eq!(again, Err(Denial::Refused(Refusal::NumberUsed)));
//! # Ok(())
//! # }
//! ```
//!
//! [`Call`], [`Answer`] and [`Denial`] are also written as JSON ([`json`]), and a
//! call as the line that is typed for it.

#![forbid(unsafe_code)]
#![warn(missing_docs)]

mod answer;
mod call;
pub mod json;
mod operation;
mod session;

pub use answer::{Answer, Closed, Denial, Round};
pub use call::{Call, OnFloor};
pub use operation::Operation;
pub use session::Session;
