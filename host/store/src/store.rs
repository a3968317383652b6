//! A session in a file.

use std::ops::{Bound, RangeBounds};
use std::time::{Duration, SystemTime, UNIX_EPOCH};

use ceromby_session::{json, Answer, Call, Denial, Session};

use crate::codec::{self, Answered};
use crate::error::StoreError;
use crate::rows::{stored, unreadable, CallRow, Counts, DeliveryRow};
use crate::sql::Statements;
use crate::sqlite::{Connection, Statement, Value};
use crate::state::State;
use crate::transaction::Transaction;

/// A session in a file. Nothing of it is kept in memory between two calls.
///
/// A store belongs to one thread; another thread, as another program, opens the
/// file for itself, and their calls are made one after another.
pub struct Store {
    pub(crate) db: Connection,
    pub(crate) sql: Statements,
    /// Whether the last commit may be seen and not be durable.
    pub(crate) in_doubt: bool,
}

/// A call that was made, now or earlier.
#[derive(Clone, PartialEq, Debug)]
pub struct Outcome {
    /// Its number in the store.
    pub sequence: u64,
    /// When it was made, by the machine's clock.
    pub time: SystemTime,
    /// What it gave, or why it gave nothing.
    pub result: Result<Answer, Denial>,
    /// Whether it was made earlier, with the same key: this is its answer given
    /// again, and nothing was changed.
    pub repeated: bool,
    /// The session as it is now.
    pub session: Session,
}

/// A call as it was recorded.
#[derive(Clone, PartialEq, Debug)]
pub struct Record {
    /// Its number in the store.
    pub sequence: u64,
    /// When it was made, by the machine's clock.
    pub time: SystemTime,
    /// The run of the floor that it was made on, if there was one.
    pub run: Option<u64>,
    /// The floor of the barge that it named with `on`.
    pub floor: Option<u32>,
    /// The word that it begins with.
    pub name: String,
    /// As it was typed.
    pub text: String,
    /// Its arguments, as JSON.
    pub arguments: String,
    /// The caller's own.
    pub key: Option<String>,
    /// What it gave, or why it gave nothing.
    pub result: Result<Answer, Denial>,
}

/// A canister that was delivered.
#[derive(Clone, Copy, PartialEq, Eq, Debug)]
pub struct Delivery {
    /// The number of the round's call in the store.
    pub call: u64,
    /// When that was made, by the machine's clock.
    pub time: SystemTime,
    /// The floor of the barge that it was made on; none for the floor at hand.
    pub floor: Option<u32>,
    /// The hopper's tile.
    pub hopper: u32,
    /// The canister's number.
    pub number: u32,
    /// The run of its floor.
    pub run: u64,
    /// The floor's round.
    pub round: u64,
}

/// What [`Store::trim`] removed.
#[derive(Clone, Copy, PartialEq, Eq, Debug)]
pub struct Trimmed {
    /// Calls.
    pub calls: u64,
    /// Deliveries.
    pub deliveries: u64,
}

impl Store {
    /// Makes a call, and gives its answer when it is durable. `text` is recorded
    /// as what was typed.
    ///
    /// With a key, the same key again gives the same answer and changes nothing,
    /// whatever became of the first one's connection. A denied call is recorded
    /// too, and changes nothing else.
    pub fn call(
        &mut self,
        call: &Call,
        key: Option<&str>,
        text: &str,
    ) -> Result<Outcome, StoreError> {
        if key.is_some_and(|key| !(1..=255).contains(&key.len())) {
            return Err(StoreError::BadKey);
        }
        let transaction = Transaction::write(&self.db)?;
        let mut state = State::read(&mut self.sql)?;
        let arguments = json::arguments(call).to_string();
        let earlier = match key {
            Some(key) => recorded(&mut self.sql, key, call, &arguments)?,
            None => None,
        };
        let outcome = match earlier {
            Some(earlier) => {
                state.settle(&mut self.sql)?;
                Outcome {
                    sequence: earlier.sequence,
                    time: earlier.time,
                    result: earlier.result,
                    repeated: true,
                    session: state.session,
                }
            }
            None => make(&mut self.sql, state, call, key, text, &arguments)?,
        };
        let committed = transaction.commit(Some(outcome.sequence));
        self.end(committed)?;
        Ok(outcome)
    }

    /// A write after which all that can be read is durable. Whoever made the last
    /// call may have been killed, or met an error, between its commit and the sync
    /// of that: others see the call, and a power cut could still take it.
    pub(crate) fn settle(&mut self) -> Result<(), StoreError> {
        let transaction = Transaction::write(&self.db)?;
        State::read(&mut self.sql)?.settle(&mut self.sql)?;
        let committed = transaction.commit(None);
        self.end(committed)
    }

    fn end(&mut self, committed: Result<(), StoreError>) -> Result<(), StoreError> {
        match committed {
            Ok(()) => self.in_doubt = false,
            Err(StoreError::CommitUnknown(..)) => self.in_doubt = true,
            // nothing was written
            Err(_) => {}
        }
        committed
    }

    fn read(&mut self) -> Result<(Transaction<'_>, &mut Statements), StoreError> {
        if self.in_doubt {
            self.settle()?;
        }
        let transaction = Transaction::read(&self.db)?;
        Ok((transaction, &mut self.sql))
    }

    /// The session as it is now.
    pub fn session(&mut self) -> Result<Session, StoreError> {
        let (_transaction, sql) = self.read()?;
        Ok(State::read(sql)?.session)
    }

    /// The number of the last call, 0 before the first.
    pub fn calls(&mut self) -> Result<u64, StoreError> {
        let (_transaction, sql) = self.read()?;
        Ok(State::read(sql)?.counts.calls)
    }

    /// The calls of these numbers that are recorded, in order; `..` for all.
    pub fn history(&mut self, calls: impl RangeBounds<u64>) -> Result<Vec<Record>, StoreError> {
        let (_transaction, sql) = self.read()?;
        let mut records = Vec::new();
        let mut rows = sql.calls.rows(&bounds(&calls))?;
        while let Some(row) = rows.step()? {
            records.push(record(&CallRow::read(&row)?.0)?);
        }
        Ok(records)
    }

    /// What the calls of these numbers delivered, in order.
    pub fn delivered(&mut self, calls: impl RangeBounds<u64>) -> Result<Vec<Delivery>, StoreError> {
        let (_transaction, sql) = self.read()?;
        let mut deliveries = Vec::new();
        let mut rows = sql.deliveries.rows(&bounds(&calls))?;
        while let Some(row) = rows.step()? {
            let (row, _) = DeliveryRow::read(&row)?;
            deliveries.push(with_call(&mut sql.calls, row)?);
        }
        Ok(deliveries)
    }

    /// Where a run's canister was delivered, if that is recorded.
    pub fn delivery(&mut self, run: u64, number: u32) -> Result<Option<Delivery>, StoreError> {
        let (_transaction, sql) = self.read()?;
        let values = [stored(run), Value::Integer(number.into())];
        let mut rows = sql.delivery.rows(&values)?;
        let Some(row) = rows.step()? else {
            return Ok(None);
        };
        let (row, _) = DeliveryRow::read(&row)?;
        with_call(&mut sql.calls, row).map(Some)
    }

    /// A time as text, UTC: `2026-11-18 06:30:00`.
    pub fn readable(&mut self, time: SystemTime) -> Result<String, StoreError> {
        let seconds = Value::Integer(milliseconds(time).div_euclid(1000));
        let values = [seconds];
        let mut rows = self.sql.as_text.rows(&values)?;
        let values = rows.step()?.map(|row| row.values()).transpose()?;
        match values.as_deref() {
            Some([Value::Text(text)]) => Ok((*text).to_owned()),
            // beyond the year 9999
            _ => Ok("-".to_owned()),
        }
    }

    /// The time of a text, UTC: `2026-11-18`, or with a time of day; none where it
    /// isn't one.
    pub fn moment(&mut self, text: &str) -> Result<Option<SystemTime>, StoreError> {
        let values = [Value::Text(text)];
        let mut rows = self.sql.as_seconds.rows(&values)?;
        let values = rows.step()?.map(|row| row.values()).transpose()?;
        let Some([Value::Integer(seconds)]) = values.as_deref() else {
            return Ok(None);
        };
        let time = system_time(seconds.saturating_mul(1000));
        drop(rows);
        // SQLite also takes a day that the month hasn't, and other forms of a time
        let same = text.len() >= 10 && self.readable(time)?.get(..10) == text.get(..10);
        Ok(same.then_some(time))
    }

    /// Removes the calls before a time, with their deliveries; those with a key
    /// stay. The floors are as they were. The file keeps its size, with room for as
    /// many new calls; SQLite's `VACUUM` makes it smaller.
    pub fn trim(&mut self, before: SystemTime) -> Result<Trimmed, StoreError> {
        let before = [Value::Integer(milliseconds(before))];
        let transaction = Transaction::write(&self.db)?;
        let mut state = State::read(&mut self.sql)?;
        let mut gone = Counts::default();
        let mut rows = self.sql.old_calls.rows(&before)?;
        while let Some(row) = rows.step()? {
            gone.add_call(CallRow::read(&row)?.1);
        }
        drop(rows);
        let mut rows = self.sql.old_deliveries.rows(&before)?;
        while let Some(row) = rows.step()? {
            gone.add_delivery(DeliveryRow::read(&row)?.1);
        }
        drop(rows);
        self.sql.remove_calls.run(&before)?;
        self.sql.remove_deliveries.run(&[])?;
        state.counts.remove(&gone);
        state.write(&mut self.sql)?;
        let committed = transaction.commit(None);
        self.end(committed)?;
        Ok(Trimmed {
            calls: gone.kept,
            deliveries: gone.deliveries,
        })
    }
}

/// The earlier call with that key.
fn recorded(
    sql: &mut Statements,
    key: &str,
    call: &Call,
    arguments: &str,
) -> Result<Option<Record>, StoreError> {
    let key = [Value::Text(key)];
    let mut rows = sql.keyed.rows(&key)?;
    let Some(row) = rows.step()? else {
        return Ok(None);
    };
    let (row, _) = CallRow::read(&row)?;
    if row.name != call.name() || row.arguments != arguments {
        return Err(StoreError::KeyUsed(row.sequence));
    }
    record(&row).map(Some)
}

/// Makes a call, and writes what it changed and what it gave.
fn make(
    sql: &mut Statements,
    mut state: State,
    call: &Call,
    key: Option<&str>,
    text: &str,
    arguments: &str,
) -> Result<Outcome, StoreError> {
    let mut session = state.session.clone();
    let result = session.call(call);
    let time = milliseconds(SystemTime::now());
    state.counts.calls += 1;
    let row = CallRow {
        sequence: state.counts.calls,
        time,
        run: run(call, &result, &session),
        floor: call.on(),
        name: call.name(),
        text,
        arguments,
        key,
        refusal: refusal(&result),
        answer: &answer(&result),
        outcome: &codec::write_answered(&result),
    };
    let checksum = row.write(&mut sql.add_call)?;
    state.counts.add_call(checksum);
    for delivery in deliveries(&row, &result) {
        let checksum = delivery.write(&mut sql.add_delivery)?;
        state.counts.add_delivery(checksum);
    }
    state.replace(session, sql)?;
    Ok(Outcome {
        sequence: row.sequence,
        time: system_time(time),
        result,
        repeated: false,
        session: state.session,
    })
}

/// A delivery with what its call's row says of it.
fn with_call(calls: &mut Statement, row: DeliveryRow) -> Result<Delivery, StoreError> {
    let DeliveryRow {
        call,
        hopper,
        number,
        run,
        round,
    } = row;
    let mut rows = calls.rows(&bounds(&(call..=call)))?;
    let found = rows.step()?;
    let found = found.ok_or_else(|| StoreError::Damaged(format!("call {call} is missing")))?;
    let (found, _) = CallRow::read(&found)?;
    Ok(Delivery {
        call,
        time: system_time(found.time),
        floor: found.floor,
        hopper,
        number,
        run,
        round,
    })
}

/// The run of the floor that a call was made on.
fn run(call: &Call, result: &Answered, after: &Session) -> Option<u64> {
    let floor = match (call, result) {
        (Call::On { floor, .. }, _) | (Call::Put { floor, .. }, Ok(_)) => after.aboard(*floor),
        _ => after.hand(),
    };
    floor.map(|operation| operation.run)
}

fn refusal(result: &Answered) -> Option<u8> {
    match result {
        Ok(_) => Some(0),
        Err(denial) => denial.refusal().map(|refusal| refusal.number()),
    }
}

fn answer(result: &Answered) -> String {
    match result {
        Ok(answer) => json::answer(answer).to_string(),
        Err(denial) => json::denial(denial).to_string(),
    }
}

/// The rows of what a round delivered.
fn deliveries(row: &CallRow, result: &Answered) -> Vec<DeliveryRow> {
    let (Some(run), Ok(Answer::Round(round))) = (row.run, result) else {
        return Vec::new();
    };
    let each = round.report.deliveries().flat_map(|(hopper, numbers)| {
        numbers.iter().map(move |number| DeliveryRow {
            call: row.sequence,
            hopper,
            number: *number,
            run,
            round: round.number,
        })
    });
    each.collect()
}

fn record(row: &CallRow) -> Result<Record, StoreError> {
    Ok(Record {
        sequence: row.sequence,
        time: system_time(row.time),
        run: row.run,
        floor: row.floor,
        name: row.name.to_owned(),
        text: row.text.to_owned(),
        arguments: row.arguments.to_owned(),
        key: row.key.map(str::to_owned),
        result: answered(row)?,
    })
}

/// What a recorded call was answered.
pub(crate) fn answered(row: &CallRow) -> Result<Answered, StoreError> {
    let answered = codec::read_answered(row.outcome);
    answered.ok_or_else(|| unreadable(format_args!("the outcome of call {}", row.sequence)))
}

/// First and last number, for a statement.
fn bounds(calls: &impl RangeBounds<u64>) -> [Value<'static>; 2] {
    let number = |number: &u64| i64::try_from(*number).unwrap_or(i64::MAX);
    let first = match calls.start_bound() {
        Bound::Included(first) => number(first),
        Bound::Excluded(before) => number(before).saturating_add(1),
        Bound::Unbounded => 0,
    };
    let last = match calls.end_bound() {
        Bound::Included(last) => number(last),
        Bound::Excluded(after) => number(after) - 1,
        Bound::Unbounded => i64::MAX,
    };
    [Value::Integer(first), Value::Integer(last)]
}

/// Since 1970; before it, negative.
fn milliseconds(time: SystemTime) -> i64 {
    let of = |span: Duration| i64::try_from(span.as_millis()).unwrap_or(i64::MAX);
    match time.duration_since(UNIX_EPOCH) {
        Ok(after) => of(after),
        Err(before) => -of(before.duration()),
    }
}

fn system_time(milliseconds: i64) -> SystemTime {
    let span = Duration::from_millis(milliseconds.unsigned_abs());
    let time = match milliseconds {
        0.. => UNIX_EPOCH.checked_add(span),
        _ => UNIX_EPOCH.checked_sub(span),
    };
    time.unwrap_or(UNIX_EPOCH)
}
