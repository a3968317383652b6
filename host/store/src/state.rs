//! The session as its rows have it.

use ceromby_session::{Operation, Session};

use crate::codec;
use crate::error::StoreError;
use crate::rows::{unreadable, Counts, FloorRow, SessionRow, HAND, PLACES};
use crate::sql::Statements;
use crate::sqlite::Value;

/// A session, and what its rows have beside it.
pub(crate) struct State {
    pub session: Session,
    pub counts: Counts,
    /// The checksums of the floors' rows.
    floors: [Option<i64>; PLACES],
}

impl State {
    /// Of a new store.
    pub fn new() -> State {
        State {
            session: Session::new(),
            counts: Counts::default(),
            floors: [None; PLACES],
        }
    }

    /// Reads it whole.
    pub fn read(sql: &mut Statements) -> Result<State, StoreError> {
        let mut operations = [const { None }; PLACES];
        let mut floors = [None; PLACES];
        let mut rows = sql.floors.rows(&[])?;
        while let Some(row) = rows.step()? {
            let row = FloorRow::read(&row)?;
            floors[row.place] = Some(row.checksum);
            operations[row.place] = Some(row.operation);
        }
        let mut rows = sql.session.rows(&[])?;
        let row = rows.step()?;
        let row = row.ok_or_else(|| StoreError::damaged("the session's row is missing"))?;
        let row = SessionRow::read(&row, &floors)?;
        let plan = codec::read_plan(row.plan).ok_or_else(|| unreadable("the plan"))?;
        let [first, second, third, fourth, hand] = operations;
        let barge = [first, second, third, fourth];
        Ok(State {
            session: Session::resume(hand, plan, barge, row.allowance, row.runs),
            counts: row.counts,
            floors,
        })
    }

    /// Writes the session that a call left in the place of this one: the floors
    /// that changed, and the session's row.
    pub fn replace(&mut self, after: Session, sql: &mut Statements) -> Result<(), StoreError> {
        for place in 0..PLACES {
            let (old, new) = (at(&self.session, place), at(&after, place));
            if old == new {
                continue;
            }
            self.floors[place] = match new {
                Some(operation) => Some(FloorRow::write(&mut sql.write_floor, place, operation)?),
                None => {
                    sql.remove_floor.run(&[Value::Integer(place as i64)])?;
                    None
                }
            };
        }
        self.session = after;
        self.write(sql)
    }

    /// Writes the session's row, changed in nothing but that it was written.
    pub fn settle(&mut self, sql: &mut Statements) -> Result<(), StoreError> {
        // SQLite doesn't write a row that is the same
        self.counts.settled += 1;
        self.write(sql)
    }

    /// Writes the session's row.
    pub fn write(&self, sql: &mut Statements) -> Result<(), StoreError> {
        let row = SessionRow {
            plan: &codec::write_plan(self.session.plan()),
            allowance: self.session.allowance(),
            runs: self.session.runs(),
            counts: self.counts,
        };
        row.write(&mut sql.write_session, &self.floors)
    }
}

fn at(session: &Session, place: usize) -> Option<&Operation> {
    match place {
        HAND => session.hand(),
        floor => session.aboard(floor as u32),
    }
}
