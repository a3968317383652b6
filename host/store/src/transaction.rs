//! One transaction.

use crate::error::StoreError;
use crate::sqlite::{Connection, Error};

/// An open transaction. Dropped, it is rolled back.
pub(crate) struct Transaction<'a> {
    db: &'a Connection,
}

impl<'a> Transaction<'a> {
    /// For reading alone. The lock comes with the first thing that is read.
    pub fn read(db: &'a Connection) -> Result<Transaction<'a>, StoreError> {
        Transaction::begin(db, "BEGIN; PRAGMA user_version")
    }

    /// With the lock that one program has at a time.
    pub fn write(db: &'a Connection) -> Result<Transaction<'a>, StoreError> {
        Transaction::begin(db, "BEGIN IMMEDIATE")
    }

    fn begin(db: &'a Connection, sql: &str) -> Result<Transaction<'a>, StoreError> {
        let transaction = Transaction { db };
        match db.execute(sql) {
            Ok(()) => Ok(transaction),
            Err(error) => Err(transaction.error(error)),
        }
    }

    fn error(&self, error: Error) -> StoreError {
        match error.is_busy() {
            true => StoreError::Busy(self.db.lock_timeout()),
            false => error.into(),
        }
    }

    /// Makes durable what was written, which is the call of that number if it is
    /// one.
    pub fn commit(self, call: Option<u64>) -> Result<(), StoreError> {
        match self.db.execute("COMMIT") {
            Ok(()) => Ok(()),
            Err(error) if error.before_commit() => Err(self.error(error)),
            Err(error) => Err(StoreError::CommitUnknown(call, error)),
        }
    }
}

impl Drop for Transaction<'_> {
    fn drop(&mut self) {
        if !self.db.is_idle() {
            // where this fails, the journal is there, and whoever reads next rolls back
            let _ = self.db.execute("ROLLBACK");
        }
    }
}
