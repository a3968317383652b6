//! A [`Session`](ceromby_session::Session) in an SQLite file: one transaction is
//! one call.
//!
//! [`Store::call`] reads the floors, makes the call by the proved library, writes
//! what it changed, records the call with its answer and its deliveries, and
//! commits. When it gives the answer, all of it is durable; when it gives an
//! error, nothing was changed, but for [`StoreError::CommitUnknown`], which says
//! that this isn't known. Memory and file can't part, because nothing of the
//! floors is kept in memory between two calls.
//!
//! ```
//! use ceromby::{tile, Settings};
//! use ceromby_session::Call;
//! use ceromby_store::Store;
//!
//! # fn main() -> Result<(), Box<dyn std::error::Error>> {
//! # let path = std::env::temp_dir().join(format!("ceromby-doc-{}", std::process::id()));
//! # let _ = std::fs::remove_file(&path);
//! let mut store = Store::create(&path)?;
//! let settings = Settings {
//!     columns: 2,
//!     rows: 1,
//!     hoppers: tile(1),
//!     sources: tile(0),
//!     width: 100,
//!     length: 30,
//!     gap: 10,
//!     travel: 20,
//! };
//! store.call(&Call::Fresh { settings, give_up: false }, None, "fresh 2 1 1 0 100 30 10 20")?.result?;
//! let book = Call::BookAnywhere { tile: 0, number: 5 };
//! let first = store.call(&book, Some("phone 7, 1"), "book 0 5")?;
//! // the answer was lost on its way, and the phone asks again
//! let again = store.call(&book, Some("phone 7, 1"), "book 0 5")?;
//! assert_eq!((again.sequence, &again.result), (first.sequence, &first.result));
//! for _ in 0..4 {
//!     store.call(&Call::Round, None, "round")?.result?;
//! }
//! let delivered = store.delivered(..)?;
//! assert_eq!(delivered[0].number, 5);
//! # drop(store);
//! # std::fs::remove_file(&path)?;
//! # let _ = std::fs::remove_file(format!("{}-journal", path.display()));
//! # Ok(())
//! # }
//! ```
//!
//! The tables are in `src/schema.sql`; the view `delivered` says what was
//! delivered when: `sqlite3 FILE 'SELECT * FROM delivered'`.

#![deny(unsafe_code)]
#![warn(missing_docs)]

mod bytes;
mod checksum;
mod codec;
mod error;
mod open;
mod rows;
#[doc(hidden)]
pub mod sql;
#[doc(hidden)]
pub mod sqlite;
mod state;
mod store;
mod transaction;

pub use error::StoreError;
pub use open::{Options, VERSION};
pub use store::{Delivery, Outcome, Record, Store, Trimmed};
