//! The rows of the four tables, each with its checksum.

use std::fmt;
use std::vec;

use ceromby::{Floor, FLOORS};
use ceromby_session::Operation;

use crate::checksum::checksum;
use crate::codec;
use crate::error::StoreError;
use crate::sqlite::{Row, Statement, Value};

/// Floors that a session has room for: the barge's, then the one at hand.
pub(crate) const PLACES: usize = FLOORS + 1;

/// The place of the floor at hand.
pub(crate) const HAND: usize = FLOORS;

/// The columns of a row whose checksum was right.
struct Columns<'a> {
    name: Name,
    values: vec::IntoIter<Value<'a>>,
    checksum: i64,
}

/// A row by its table and first column.
#[derive(Clone, Copy)]
struct Name(&'static str, i64);

impl fmt::Display for Name {
    fn fmt(&self, f: &mut fmt::Formatter) -> fmt::Result {
        write!(f, "{} {}", self.0, self.1)
    }
}

impl<'a> Columns<'a> {
    /// `beside` is covered by the checksum and is part of other rows.
    fn of(table: &'static str, row: &Row<'a>, beside: &[Value]) -> Result<Columns<'a>, StoreError> {
        let mut values = row.values()?;
        let first = values.first().copied();
        let name = Name(table, first.and_then(integer).unwrap_or(0));
        let stored = values.pop();
        let checksum = checksum(table, values.iter().chain(beside));
        if stored != Some(Value::Integer(checksum)) {
            return Err(StoreError::Damaged(format!("{name} has a wrong checksum")));
        }
        Ok(Columns {
            name,
            values: values.into_iter(),
            checksum,
        })
    }

    fn take<T>(&mut self, read: impl Fn(Value<'a>) -> Option<T>) -> Result<T, StoreError> {
        let value = self.values.next().and_then(read);
        value.ok_or_else(|| unreadable(self.name))
    }

    fn number<N: TryFrom<i64>>(&mut self) -> Result<N, StoreError> {
        self.take(integer)
    }

    fn some_number<N: TryFrom<i64>>(&mut self) -> Result<Option<N>, StoreError> {
        self.take(|value| match value {
            Value::Null => Some(None),
            other => integer(other).map(Some),
        })
    }

    fn text(&mut self) -> Result<&'a str, StoreError> {
        self.take(text)
    }

    fn some_text(&mut self) -> Result<Option<&'a str>, StoreError> {
        self.take(|value| match value {
            Value::Null => Some(None),
            other => text(other).map(Some),
        })
    }

    fn bytes(&mut self) -> Result<&'a [u8], StoreError> {
        self.take(bytes)
    }

    fn some_bytes(&mut self) -> Result<Option<&'a [u8]>, StoreError> {
        self.take(|value| match value {
            Value::Null => Some(None),
            other => bytes(other).map(Some),
        })
    }
}

fn integer<N: TryFrom<i64>>(value: Value) -> Option<N> {
    match value {
        Value::Integer(number) => number.try_into().ok(),
        _ => None,
    }
}

fn text(value: Value<'_>) -> Option<&str> {
    match value {
        Value::Text(text) => Some(text),
        _ => None,
    }
}

fn bytes(value: Value<'_>) -> Option<&[u8]> {
    match value {
        Value::Blob(bytes) => Some(bytes),
        _ => None,
    }
}

/// A row whose checksum is right and that no store writes.
pub(crate) fn unreadable(what: impl fmt::Display) -> StoreError {
    StoreError::Damaged(format!("{what} can't be read"))
}

/// A number for a column. What is counted here starts at 0 and never comes near the limit.
pub(crate) fn stored(number: u64) -> Value<'static> {
    Value::Integer(i64::try_from(number).unwrap_or(i64::MAX))
}

fn some_stored(number: Option<u64>) -> Value<'static> {
    number.map_or(Value::Null, stored)
}

/// Writes the values with their checksum, which it gives.
fn write(
    statement: &mut Statement,
    table: &str,
    mut values: Vec<Value>,
    beside: &[Value],
) -> Result<i64, StoreError> {
    let checksum = checksum(table, values.iter().chain(beside));
    values.push(Value::Integer(checksum));
    statement.run(&values)?;
    Ok(checksum)
}

/// What the session's row has beside plan and allowance.
#[derive(Clone, Copy, PartialEq, Eq, Debug, Default)]
pub(crate) struct Counts {
    pub calls: u64,
    pub kept: u64,
    pub deliveries: u64,
    pub history: i64,
    pub settled: u64,
}

impl Counts {
    /// A row of `call` came.
    pub fn add_call(&mut self, checksum: i64) {
        self.kept += 1;
        self.history = self.history.wrapping_add(checksum);
    }

    /// Rows went that were added to `gone`.
    pub fn remove(&mut self, gone: &Counts) {
        self.kept -= gone.kept;
        self.deliveries -= gone.deliveries;
        self.history = self.history.wrapping_sub(gone.history);
    }

    /// A row of `delivery` came.
    pub fn add_delivery(&mut self, checksum: i64) {
        self.deliveries += 1;
        self.history = self.history.wrapping_add(checksum);
    }
}

/// The row of `session`.
pub(crate) struct SessionRow<'a> {
    pub plan: &'a [u8],
    pub allowance: u32,
    pub runs: u64,
    pub counts: Counts,
}

impl<'a> SessionRow<'a> {
    pub fn read(row: &Row<'a>, floors: &[Option<i64>]) -> Result<SessionRow<'a>, StoreError> {
        let mut columns = Columns::of("session", row, &beside(floors))?;
        columns.number::<u8>()?;
        Ok(SessionRow {
            plan: columns.bytes()?,
            allowance: columns.number()?,
            runs: columns.number()?,
            counts: Counts {
                calls: columns.number()?,
                kept: columns.number()?,
                deliveries: columns.number()?,
                history: columns.number()?,
                settled: columns.number()?,
            },
        })
    }

    pub fn write(&self, into: &mut Statement, floors: &[Option<i64>]) -> Result<(), StoreError> {
        let Counts {
            calls,
            kept,
            deliveries,
            history,
            settled,
        } = self.counts;
        let values = vec![
            Value::Integer(1),
            Value::Blob(self.plan),
            Value::Integer(self.allowance.into()),
            stored(self.runs),
            stored(calls),
            stored(kept),
            stored(deliveries),
            Value::Integer(history),
            stored(settled),
        ];
        write(into, "session", values, &beside(floors)).map(|_| ())
    }
}

/// The floors' checksums as the session's row covers them.
fn beside(floors: &[Option<i64>]) -> Vec<Value<'static>> {
    let of = |checksum: &Option<i64>| checksum.map_or(Value::Null, Value::Integer);
    floors.iter().map(of).collect()
}

/// A row of `floor`.
pub(crate) struct FloorRow {
    pub place: usize,
    pub operation: Operation,
    pub checksum: i64,
}

impl FloorRow {
    /// Loads its image by the library.
    pub fn read(row: &Row) -> Result<FloorRow, StoreError> {
        let mut columns = Columns::of("floor", row, &[])?;
        let place: usize = columns.number()?;
        let (run, rounds) = (columns.number()?, columns.number()?);
        let wrong = || unreadable(format_args!("floor {place}"));
        let image = columns.bytes()?;
        let floor = Floor::load(image).map_err(|refusal| {
            let number = refusal.number();
            StoreError::Damaged(format!("floor {place} doesn't load: {number}, {refusal}"))
        })?;
        // no bytes load as the standard floor, and are never written
        if image.is_empty() || place >= PLACES {
            return Err(wrong());
        }
        let records = codec::read_records(columns.bytes()?).ok_or_else(wrong)?;
        let report = match columns.some_bytes()? {
            Some(bytes) => Some(codec::read_report(bytes).ok_or_else(wrong)?),
            None => None,
        };
        let operation = Operation {
            floor,
            run,
            rounds,
            records,
            report,
        };
        Ok(FloorRow {
            place,
            operation,
            checksum: columns.checksum,
        })
    }

    /// Gives the row's checksum.
    pub fn write(
        into: &mut Statement,
        place: usize,
        operation: &Operation,
    ) -> Result<i64, StoreError> {
        // the library refuses to write no floor that it gave
        let image = operation.floor.to_image().map_err(|refusal| {
            StoreError::Damaged(format!("the floor can't be written: {refusal}"))
        })?;
        let records = codec::write_records(&operation.records);
        let report = operation.report.as_ref().map(codec::write_report);
        let values = vec![
            stored(place as u64),
            stored(operation.run),
            stored(operation.rounds),
            Value::Blob(&image),
            Value::Blob(&records),
            report.as_deref().map_or(Value::Null, Value::Blob),
        ];
        write(into, "floor", values, &[])
    }
}

/// A row of `call`.
#[derive(Clone, Copy)]
pub(crate) struct CallRow<'a> {
    pub sequence: u64,
    pub time: i64,
    pub run: Option<u64>,
    pub floor: Option<u32>,
    pub name: &'a str,
    pub text: &'a str,
    pub arguments: &'a str,
    pub key: Option<&'a str>,
    pub refusal: Option<u8>,
    pub answer: &'a str,
    pub outcome: &'a [u8],
}

impl<'a> CallRow<'a> {
    /// With its checksum.
    pub fn read(row: &Row<'a>) -> Result<(CallRow<'a>, i64), StoreError> {
        let mut columns = Columns::of("call", row, &[])?;
        let row = CallRow {
            sequence: columns.number()?,
            time: columns.number()?,
            run: columns.some_number()?,
            floor: columns.some_number()?,
            name: columns.text()?,
            text: columns.text()?,
            arguments: columns.text()?,
            key: columns.some_text()?,
            refusal: columns.some_number()?,
            answer: columns.text()?,
            outcome: columns.bytes()?,
        };
        Ok((row, columns.checksum))
    }

    /// Gives its checksum.
    pub fn write(&self, into: &mut Statement) -> Result<i64, StoreError> {
        let values = vec![
            stored(self.sequence),
            Value::Integer(self.time),
            some_stored(self.run),
            some_stored(self.floor.map(u64::from)),
            Value::Text(self.name),
            Value::Text(self.text),
            Value::Text(self.arguments),
            self.key.map_or(Value::Null, Value::Text),
            some_stored(self.refusal.map(u64::from)),
            Value::Text(self.answer),
            Value::Blob(self.outcome),
        ];
        write(into, "call", values, &[])
    }
}

/// A row of `delivery`.
#[derive(Clone, Copy, PartialEq, Eq, Debug)]
pub(crate) struct DeliveryRow {
    pub call: u64,
    pub hopper: u32,
    pub number: u32,
    pub run: u64,
    pub round: u64,
}

impl DeliveryRow {
    /// With its checksum.
    pub fn read(row: &Row) -> Result<(DeliveryRow, i64), StoreError> {
        let mut columns = Columns::of("delivery", row, &[])?;
        let row = DeliveryRow {
            call: columns.number()?,
            hopper: columns.number()?,
            number: columns.number()?,
            run: columns.number()?,
            round: columns.number()?,
        };
        Ok((row, columns.checksum))
    }

    /// Gives its checksum.
    pub fn write(&self, into: &mut Statement) -> Result<i64, StoreError> {
        let values = vec![
            stored(self.call),
            Value::Integer(self.hopper.into()),
            Value::Integer(self.number.into()),
            stored(self.run),
            stored(self.round),
        ];
        write(into, "delivery", values, &[])
    }
}
