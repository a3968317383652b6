//! The statements.

use crate::sqlite::{Connection, Error, Statement};

/// What makes a new store.
pub(crate) const SCHEMA: &str = include_str!("schema.sql");

macro_rules! statements {
    ($($(#[doc = $what:literal])* $name:ident $sql:literal)*) => {
        /// All statements that a store runs, prepared once.
        pub struct Statements {
            $($(#[doc = $what])* pub $name: Statement,)*
        }

        impl Statements {
            /// For an open store.
            pub fn prepare(db: &Connection) -> Result<Statements, Error> {
                Ok(Statements { $($name: db.prepare($sql)?,)* })
            }
        }
    };
}

statements! {
    /// The session's row.
    session "SELECT id, plan, allowance, runs, calls, kept, deliveries, history, settled, checksum FROM session"
    /// Puts another in its place.
    write_session "INSERT OR REPLACE INTO session VALUES (?, ?, ?, ?, ?, ?, ?, ?, ?, ?)"
    /// The floors that there are.
    floors "SELECT place, run, rounds, image, throughput, report, checksum FROM floor ORDER BY place"
    /// Puts a floor to its place.
    write_floor "INSERT OR REPLACE INTO floor VALUES (?, ?, ?, ?, ?, ?, ?)"
    /// Takes one away.
    remove_floor "DELETE FROM floor WHERE place = ?"
    /// Calls from one number to another.
    calls "SELECT sequence, time, run, floor, name, text, arguments, key, refusal, answer, outcome, checksum FROM call WHERE sequence BETWEEN ? AND ? ORDER BY sequence"
    /// The call with a key.
    keyed "SELECT sequence, time, run, floor, name, text, arguments, key, refusal, answer, outcome, checksum FROM call WHERE key = ?"
    /// Records a call.
    add_call "INSERT INTO call VALUES (?, ?, ?, ?, ?, ?, ?, ?, ?, ?, ?, ?)"
    /// Deliveries of the calls from one number to another.
    deliveries "SELECT call, hopper, number, run, round, checksum FROM delivery WHERE call BETWEEN ? AND ? ORDER BY call, hopper, number"
    /// The delivery of a run's canister.
    delivery "SELECT call, hopper, number, run, round, checksum FROM delivery WHERE run = ? AND number = ?"
    /// Records a delivery.
    add_delivery "INSERT INTO delivery VALUES (?, ?, ?, ?, ?, ?)"
    /// Calls before a time, but for those with a key.
    old_calls "SELECT sequence, time, run, floor, name, text, arguments, key, refusal, answer, outcome, checksum FROM call WHERE time < ? AND key IS NULL"
    /// Their deliveries.
    old_deliveries "SELECT delivery.call, hopper, number, delivery.run, round, delivery.checksum FROM delivery JOIN call ON sequence = call WHERE time < ? AND key IS NULL"
    /// Removes these calls.
    remove_calls "DELETE FROM call WHERE time < ? AND key IS NULL"
    /// Seconds since 1970 as a date and time.
    as_text "SELECT strftime('%Y-%m-%d %H:%M:%S', ?, 'unixepoch')"
    /// A date, with or without a time, as seconds since 1970.
    as_seconds "SELECT CAST(strftime('%s', ?) AS INTEGER)"
    /// Removes deliveries whose call is not there.
    remove_deliveries "DELETE FROM delivery WHERE call NOT IN (SELECT sequence FROM call)"
}
