//! Opening a store, and the test of all that it has.

use std::fs;
use std::path::Path;
use std::time::Duration;

use crate::error::StoreError;
use crate::rows::{CallRow, Counts, DeliveryRow};
use crate::sql::{Statements, SCHEMA};
use crate::sqlite::{self, Connection, Missing, Value};
use crate::state::State;
use crate::store::{answered, Store};
use crate::transaction::Transaction;

/// The version of the schema.
pub const VERSION: i64 = 1;

/// `PRAGMA application_id` of a store: "Cero".
const APPLICATION: i64 = 0x4365_726f;

/// The oldest SQLite that has the tables' `STRICT`.
const OLDEST: i32 = 3_037_000;

/// How a store is opened or made.
///
/// ```no_run
/// # fn main() -> Result<(), ceromby_store::StoreError> {
/// use std::time::Duration;
/// use ceromby_store::Options;
///
/// let store = Options::new().lock_timeout(Duration::from_secs(1)).open("barge.store")?;
/// # Ok(())
/// # }
/// ```
#[derive(Clone, Copy, Debug)]
pub struct Options {
    lock_timeout: Duration,
    synced: bool,
}

impl Default for Options {
    fn default() -> Options {
        Options {
            lock_timeout: Duration::from_secs(5),
            synced: true,
        }
    }
}

impl Options {
    /// Waits 5 seconds for a lock, and syncs.
    pub fn new() -> Options {
        Options::default()
    }

    /// How long a call waits for another program's call. After that it is an
    /// error, and no call is made.
    pub fn lock_timeout(self, lock_timeout: Duration) -> Options {
        Options {
            lock_timeout,
            ..self
        }
    }

    /// Without syncs, for measurements: a power cut may take calls that were
    /// answered, or damage the store.
    pub fn unsynced(self) -> Options {
        Options {
            synced: false,
            ..self
        }
    }

    /// Opens a store that is there, and tests all that it has. The calls of other
    /// programs wait meanwhile, so trim a long history ([`Store::trim`]).
    pub fn open(self, path: impl AsRef<Path>) -> Result<Store, StoreError> {
        let path = path.as_ref();
        let db = self.connect(path, Missing::Refused)?;
        check_kind(&db, path)?;
        let transaction = Transaction::read(&db)?;
        check_schema(&db)?;
        check_integrity(&db)?;
        let mut sql = Statements::prepare(&db)?;
        check_rows(&mut sql)?;
        drop(transaction);
        self.prepare_journal(&db)?;
        let mut store = Store {
            db,
            sql,
            in_doubt: false,
        };
        store.settle().map_err(|error| match error {
            StoreError::Database(error) if error.is_read_only() => {
                StoreError::NotOpened(path.to_owned(), "it can't be written to".to_owned())
            }
            other => other,
        })?;
        Ok(store)
    }

    /// Makes a new store where there is no file, or an empty one.
    pub fn create(self, path: impl AsRef<Path>) -> Result<Store, StoreError> {
        let path = path.as_ref();
        self.fill(path)?;
        self.open(path)
    }

    /// Opens a store; makes one where there is no file, or nothing in it, as a
    /// program leaves it that ended while it made one. Whether it is new.
    pub fn open_or_create(self, path: impl AsRef<Path>) -> Result<(Store, bool), StoreError> {
        let path = path.as_ref();
        match self.open(path) {
            Err(StoreError::NotOpened(..) | StoreError::NotAStore(_)) => {}
            opened => return opened.map(|store| (store, false)),
        }
        match self.create(path) {
            // another program made it just now, or it is something else
            Err(StoreError::Exists(_)) => self.open(path).map(|store| (store, false)),
            created => created.map(|store| (store, true)),
        }
    }

    fn fill(self, path: &Path) -> Result<(), StoreError> {
        let db = self.connect(path, Missing::Created)?;
        db.execute(self.synchronous())
            .map_err(|error| other_file(path, error.into()))?;
        let transaction = Transaction::write(&db).map_err(|error| other_file(path, error))?;
        if kind(&db)? != (0, 0) || !schema(&db)?.is_empty() {
            return Err(StoreError::Exists(path.to_owned()));
        }
        db.execute(SCHEMA)?;
        State::new().write(&mut Statements::prepare(&db)?)?;
        transaction.commit(None)
    }

    fn connect(self, path: &Path, missing: Missing) -> Result<Connection, StoreError> {
        if sqlite::version() < OLDEST {
            return Err(StoreError::OldLibrary(sqlite::version()));
        }
        let db = Connection::open(path, missing).map_err(|error| not_opened(path, error))?;
        db.set_lock_timeout(self.lock_timeout);
        Ok(db)
    }

    /// The journal's end is a file that goes from its folder, and a commit is
    /// durable when the folder is synced too.
    fn synchronous(self) -> &'static str {
        match self.synced {
            true => "PRAGMA synchronous = EXTRA",
            false => "PRAGMA synchronous = OFF",
        }
    }

    /// A rollback journal: between two calls one file has everything.
    fn prepare_journal(self, db: &Connection) -> Result<(), StoreError> {
        let mode = texts(db, "PRAGMA journal_mode = DELETE")?;
        if mode != [["delete"]] {
            return Err(StoreError::damaged("it has another journal"));
        }
        db.execute(self.synchronous())?;
        db.execute("PRAGMA cell_size_check = ON; PRAGMA trusted_schema = OFF")?;
        Ok(())
    }
}

impl Store {
    /// Opens a store that is there, as [`Options::open`] does.
    pub fn open(path: impl AsRef<Path>) -> Result<Store, StoreError> {
        Options::new().open(path)
    }

    /// Makes a new store, as [`Options::create`] does.
    pub fn create(path: impl AsRef<Path>) -> Result<Store, StoreError> {
        Options::new().create(path)
    }
}

/// The system's words, where it has any.
fn not_opened(path: &Path, error: sqlite::Error) -> StoreError {
    if !error.is_unopened() {
        return error.into();
    }
    let opened = fs::OpenOptions::new().read(true).write(true).open(path);
    let why = opened.map_or_else(|system| system.to_string(), |_| error.message);
    StoreError::NotOpened(path.to_owned(), why)
}

/// Where a new store was to be made, a file that is no database is another one.
fn other_file(path: &Path, error: StoreError) -> StoreError {
    match error {
        StoreError::Damaged(_) => StoreError::Exists(path.to_owned()),
        other => other,
    }
}

/// `PRAGMA application_id` and `user_version`.
fn kind(db: &Connection) -> Result<(i64, i64), StoreError> {
    let number = |sql| -> Result<i64, StoreError> {
        let mut statement = db.prepare(sql)?;
        let mut rows = statement.rows(&[])?;
        let row = rows.step()?;
        let values = row.map(|row| row.values()).transpose()?;
        match values.as_deref() {
            Some([Value::Integer(number)]) => Ok(*number),
            _ => Err(StoreError::damaged("its header can't be read")),
        }
    };
    Ok((
        number("PRAGMA application_id")?,
        number("PRAGMA user_version")?,
    ))
}

/// A store of this version.
fn check_kind(db: &Connection, path: &Path) -> Result<(), StoreError> {
    let found = Transaction::read(db).and_then(|_transaction| kind(db));
    match found {
        Ok((APPLICATION, VERSION)) => Ok(()),
        Ok((APPLICATION, other)) => Err(StoreError::OtherVersion(other)),
        Ok(_) | Err(StoreError::Damaged(_)) => Err(StoreError::NotAStore(path.to_owned())),
        Err(error) => Err(error),
    }
}

/// All rows of a query that gives texts; nothing is the empty one.
fn texts(db: &Connection, sql: &str) -> Result<Vec<Vec<String>>, StoreError> {
    let mut statement = db.prepare(sql)?;
    let mut rows = statement.rows(&[])?;
    let mut all = Vec::new();
    while let Some(row) = rows.step()? {
        let texts = row.values()?.into_iter().map(|value| match value {
            Value::Text(text) => text.to_owned(),
            _ => String::new(),
        });
        all.push(texts.collect());
    }
    Ok(all)
}

/// The tables, indices and views.
fn schema(db: &Connection) -> Result<Vec<Vec<String>>, StoreError> {
    texts(
        db,
        "SELECT type, name, tbl_name, sql FROM sqlite_schema ORDER BY type, name",
    )
}

/// Tables and views are those of the schema, to the letter.
fn check_schema(db: &Connection) -> Result<(), StoreError> {
    let new = Connection::in_memory()?;
    new.execute(SCHEMA)?;
    match schema(db)? == schema(&new)? {
        true => Ok(()),
        false => Err(StoreError::damaged("its tables aren't those of a store")),
    }
}

/// What SQLite finds by itself: pages, records, indices.
fn check_integrity(db: &Connection) -> Result<(), StoreError> {
    let found = texts(db, "PRAGMA integrity_check(1)")?;
    match found.first().and_then(|row| row.first()) {
        Some(word) if word == "ok" => Ok(()),
        Some(fault) => Err(StoreError::damaged(fault)),
        None => Err(StoreError::damaged("it can't be tested")),
    }
}

/// Every row has its checksum, every image loads, and the history adds up.
fn check_rows(sql: &mut Statements) -> Result<(), StoreError> {
    let expected = State::read(sql)?.counts;
    let mut found = Counts {
        kept: 0,
        deliveries: 0,
        history: 0,
        ..expected
    };
    let all = [Value::Integer(i64::MIN), Value::Integer(i64::MAX)];
    let mut rows = sql.calls.rows(&all)?;
    while let Some(row) = rows.step()? {
        let (row, checksum) = CallRow::read(&row)?;
        answered(&row).map(drop)?;
        found.add_call(checksum);
    }
    let mut rows = sql.deliveries.rows(&all)?;
    while let Some(row) = rows.step()? {
        found.add_delivery(DeliveryRow::read(&row)?.1);
    }
    match found == expected {
        true => Ok(()),
        false => Err(StoreError::Damaged(format!(
            "its history has {} calls and {} deliveries; {} and {} were recorded",
            found.kept, found.deliveries, expected.kept, expected.deliveries
        ))),
    }
}
