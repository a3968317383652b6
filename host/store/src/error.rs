//! Why a store did nothing.

use std::fmt;
use std::path::PathBuf;
use std::time::Duration;

use crate::sqlite;

/// Why a store did nothing. It is as it was, but for
/// [`StoreError::CommitUnknown`].
#[derive(Clone, PartialEq, Eq, Debug)]
#[non_exhaustive]
pub enum StoreError {
    /// There is no such file, or it can't be opened for reading and writing.
    NotOpened(PathBuf, String),
    /// There is a file with content where a new store was to be made.
    Exists(PathBuf),
    /// The file is something else; nothing was written to it.
    NotAStore(PathBuf),
    /// The store has another version; nothing was written to it.
    OtherVersion(i64),
    /// SQLite itself is older than the store needs.
    OldLibrary(i32),
    /// The store is damaged: what is wrong. Nothing was written to it.
    Damaged(String),
    /// Another program held the store for so long; no call was made.
    Busy(Duration),
    /// A key has 1 to 255 bytes.
    BadKey,
    /// The key was given to another call, of that number; no call was made.
    KeyUsed(u64),
    /// Whether the change is in the store isn't known, and whether it stays. If
    /// it is a call, of that number: asked again with its key, it is made if it
    /// isn't there; without one, the history says.
    CommitUnknown(Option<u64>, sqlite::Error),
    /// SQLite gave an error; nothing was changed.
    Database(sqlite::Error),
}

impl StoreError {
    pub(crate) fn damaged(what: impl Into<String>) -> StoreError {
        StoreError::Damaged(what.into())
    }
}

/// But for a lock that didn't come, whose time the caller knows.
impl From<sqlite::Error> for StoreError {
    fn from(error: sqlite::Error) -> StoreError {
        match error.is_damage() {
            true => StoreError::Damaged(error.message),
            false => StoreError::Database(error),
        }
    }
}

impl fmt::Display for StoreError {
    fn fmt(&self, f: &mut fmt::Formatter) -> fmt::Result {
        match self {
            StoreError::NotOpened(path, why) => write!(f, "{} isn't opened: {why}", path.display()),
            StoreError::Exists(path) => write!(f, "{} is there already", path.display()),
            StoreError::NotAStore(path) => write!(f, "{} is no store", path.display()),
            StoreError::OtherVersion(version) => write!(
                f,
                "the store has version {version}, and this program knows {} alone",
                crate::VERSION
            ),
            StoreError::OldLibrary(version) => write!(
                f,
                "SQLite is {}.{}, and 3.37 is the oldest that does",
                version / 1_000_000,
                version / 1_000 % 1_000
            ),
            StoreError::Damaged(what) => write!(f, "the store is damaged: {what}"),
            StoreError::Busy(waited) => write!(
                f,
                "another program has held the store for {} s; no call was made",
                waited.as_secs_f32()
            ),
            StoreError::BadKey => f.write_str("a key has 1 to 255 bytes; no call was made"),
            StoreError::KeyUsed(sequence) => write!(
                f,
                "the key belongs to call {sequence}, which is another one; no call was made"
            ),
            StoreError::CommitUnknown(Some(call), error) => write!(
                f,
                "whether call {call} is in the store isn't known: ask again with its key, \
                 or look at the history ({error})"
            ),
            StoreError::CommitUnknown(None, error) => {
                write!(f, "whether the store was changed isn't known ({error})")
            }
            StoreError::Database(error) => write!(f, "nothing was changed: {error}"),
        }
    }
}

impl std::error::Error for StoreError {
    fn source(&self) -> Option<&(dyn std::error::Error + 'static)> {
        match self {
            StoreError::CommitUnknown(_, error) | StoreError::Database(error) => Some(error),
            _ => None,
        }
    }
}
