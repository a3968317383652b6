//! What a store has recorded.

use std::time::SystemTime;

use ceromby_session::json::{self, Json};
use ceromby_store::{Delivery, Record, Store, StoreError};

use crate::say;
use crate::show::Shown;

/// The most that one line shows.
const MOST: u64 = 10_000;

/// The last calls.
pub fn history(store: &mut Store, last: u32) -> Result<Shown, StoreError> {
    let calls = store.calls()?;
    let first = calls.saturating_sub(MOST.min(last.into())) + 1;
    let records = store.history(first..)?;
    let mut lines = vec![format!(
        "history: {} of {}, times are UTC",
        records.len(),
        say::counted(calls, "call")
    )];
    let mut gave = Vec::new();
    for record in &records {
        let time = store.readable(record.time)?;
        lines.push(line(record, &time));
        gave.push(object(record, time));
    }
    Ok(Shown {
        lines,
        gave: Json::Object(vec![("calls", Json::List(gave))]),
    })
}

fn line(record: &Record, time: &str) -> String {
    let Record { sequence, text, .. } = record;
    let answered = match &record.result {
        Ok(_) => "accepted".to_owned(),
        Err(denial) => denial.to_string(),
    };
    let key = record.key.as_deref();
    let key = key.map_or(String::new(), |key| {
        format!(", key {}", say::shown(key.as_bytes()))
    });
    format!("      {sequence} {time} {text}: {answered}{key}")
}

fn object(record: &Record, time: String) -> Json {
    let (refusal, answer) = match &record.result {
        Ok(answer) => (Json::from(0_u8), json::answer(answer)),
        Err(denial) => {
            let refusal = denial.refusal().map(|refusal| refusal.number());
            (refusal.map_or(Json::Null, Json::from), json::denial(denial))
        }
    };
    Json::Object(vec![
        ("sequence", record.sequence.into()),
        ("time", Json::Text(time)),
        ("run", record.run.map_or(Json::Null, Json::from)),
        ("floor", record.floor.map_or(Json::Null, Json::from)),
        ("text", record.text.as_str().into()),
        ("key", record.key.as_deref().map_or(Json::Null, Json::from)),
        ("refusal", refusal),
        ("answer", answer),
    ])
}

/// The last deliveries.
pub fn delivered(store: &mut Store, last: u32) -> Result<Shown, StoreError> {
    let found = last_deliveries(store, MOST.min(last.into()) as usize)?;
    let mut lines = vec![match found.is_empty() {
        true => "delivered: nothing that is recorded".to_owned(),
        false => format!("delivered: the last {}, times are UTC", found.len()),
    }];
    let mut gave = Vec::new();
    for delivery in &found {
        let time = store.readable(delivery.time)?;
        lines.push(delivery_line(delivery, &time));
        gave.push(delivery_object(delivery, time));
    }
    Ok(Shown {
        lines,
        gave: Json::Object(vec![("delivered", Json::List(gave))]),
    })
}

/// Some calls after the other, from the last back.
fn last_deliveries(store: &mut Store, last: usize) -> Result<Vec<Delivery>, StoreError> {
    let mut found: Vec<Delivery> = Vec::new();
    let mut end = store.calls()?;
    while end > 0 && found.len() < last {
        let start = end.saturating_sub(MOST);
        let mut earlier = store.delivered(start + 1..=end)?;
        earlier.append(&mut found);
        found = earlier;
        end = start;
    }
    let spare = found.len().saturating_sub(last);
    Ok(found.split_off(spare))
}

fn delivery_line(delivery: &Delivery, time: &str) -> String {
    let Delivery {
        number,
        hopper,
        run,
        round,
        call,
        ..
    } = delivery;
    let floor = delivery.floor;
    let floor = floor.map_or(String::new(), |floor| {
        format!(", floor {floor} of the barge")
    });
    format!("      {time} {number} at hopper {hopper} in round {round} of run {run}, call {call}{floor}")
}

fn delivery_object(delivery: &Delivery, time: String) -> Json {
    Json::Object(vec![
        ("time", Json::Text(time)),
        ("number", delivery.number.into()),
        ("hopper", delivery.hopper.into()),
        ("run", delivery.run.into()),
        ("round", delivery.round.into()),
        ("floor", delivery.floor.map_or(Json::Null, Json::from)),
        ("call", delivery.call.into()),
    ])
}

/// Removes the calls before a day.
pub fn trim(store: &mut Store, day: &str, before: SystemTime) -> Result<Shown, StoreError> {
    let gone = store.trim(before)?;
    let calls = say::counted(gone.calls, "call");
    Ok(Shown {
        lines: vec![format!(
            "trim: {calls} before {day} removed, with {} deliveries; calls with a key stay",
            gone.deliveries
        )],
        gave: Json::Object(vec![
            ("calls", gone.calls.into()),
            ("deliveries", gone.deliveries.into()),
        ]),
    })
}
