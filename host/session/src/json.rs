//! Calls and answers as JSON.

use std::fmt;

use ceromby::{tiles, Booking, Canister, Entry, Report, Settings, Stage};

use crate::answer::{Answer, Closed, Denial, Round};
use crate::call::{Call, OnFloor};

/// A value of JSON. Its `Display` is one line without blanks between its parts.
#[derive(Clone, PartialEq, Debug)]
pub enum Json {
    /// Nothing.
    Null,
    /// Yes or no.
    Bool(bool),
    /// A whole number.
    Number(u64),
    /// A rate: finite.
    Rate(f64),
    /// A text.
    Text(String),
    /// Values in order.
    List(Vec<Json>),
    /// Named values, in the order given.
    Object(Vec<(&'static str, Json)>),
}

impl Json {
    /// Numbers in order.
    pub fn numbers<N: Into<u64>>(all: impl IntoIterator<Item = N>) -> Json {
        all.into_iter()
            .map(|number| Json::Number(number.into()))
            .collect()
    }
}

macro_rules! whole_numbers {
    ($($number:ty)*) => {
        $(impl From<$number> for Json {
            fn from(number: $number) -> Json {
                Json::Number(number.into())
            }
        })*
    };
}

whole_numbers!(u8 u16 u32 u64);

impl From<&str> for Json {
    fn from(text: &str) -> Json {
        Json::Text(text.to_owned())
    }
}

impl FromIterator<Json> for Json {
    fn from_iter<I: IntoIterator<Item = Json>>(all: I) -> Json {
        Json::List(all.into_iter().collect())
    }
}

impl fmt::Display for Json {
    fn fmt(&self, f: &mut fmt::Formatter) -> fmt::Result {
        match self {
            Json::Null => f.write_str("null"),
            Json::Bool(yes) => write!(f, "{yes}"),
            Json::Number(number) => write!(f, "{number}"),
            Json::Rate(rate) => write!(f, "{rate}"),
            Json::Text(text) => write_text(f, text),
            Json::List(all) => {
                f.write_str("[")?;
                for (before, value) in all.iter().enumerate() {
                    write!(f, "{}{value}", comma(before))?;
                }
                f.write_str("]")
            }
            Json::Object(all) => {
                f.write_str("{")?;
                for (before, (name, value)) in all.iter().enumerate() {
                    f.write_str(comma(before))?;
                    write_text(f, name)?;
                    write!(f, ":{value}")?;
                }
                f.write_str("}")
            }
        }
    }
}

fn comma(before: usize) -> &'static str {
    if before == 0 {
        ""
    } else {
        ","
    }
}

/// In quotation marks, with what JSON doesn't allow in a text escaped.
fn write_text(f: &mut fmt::Formatter, text: &str) -> fmt::Result {
    f.write_str("\"")?;
    for c in text.chars() {
        match c {
            '"' => f.write_str("\\\"")?,
            '\\' => f.write_str("\\\\")?,
            '\n' => f.write_str("\\n")?,
            '\r' => f.write_str("\\r")?,
            '\t' => f.write_str("\\t")?,
            c if c < ' ' || c == '\u{7f}' => write!(f, "\\u{:04x}", c as u32)?,
            c => write!(f, "{c}")?,
        }
    }
    f.write_str("\"")
}

/// The arguments of a call, all that tells two calls of one name apart.
pub fn arguments(call: &Call) -> Json {
    match call {
        Call::Fresh { settings, give_up } => {
            let mut fields = settings_fields(settings);
            fields.push(("give_up", Json::Bool(*give_up)));
            Json::Object(fields)
        }
        Call::Load { image, give_up } => Json::Object(vec![
            ("image", Json::Text(hex(image))),
            ("give_up", Json::Bool(*give_up)),
        ]),
        Call::Book { tile, canister } => booking(*tile, canister),
        Call::BookAnywhere { tile, number } => tile_number(*tile, *number),
        Call::BookList(list) => {
            let entries = list
                .iter()
                .map(|entry| booking(entry.tile, &entry.canister));
            Json::Object(vec![("entries", entries.collect())])
        }
        Call::Stop(tile) | Call::Repair(tile) => Json::Object(vec![("tile", (*tile).into())]),
        Call::Keep(name) | Call::Recall(name) | Call::Forget(name) => {
            Json::Object(vec![("name", Json::Text(name.to_string()))])
        }
        Call::Round | Call::NewPlan => Json::Object(vec![]),
        Call::Entry(entry) => Json::Object(entry_fields(entry)),
        Call::Release(label) => Json::Object(vec![("label", (*label).into())]),
        Call::Put { floor, give_up } | Call::Take { floor, give_up } => Json::Object(vec![
            ("floor", (*floor).into()),
            ("give_up", Json::Bool(*give_up)),
        ]),
        Call::Allowance(allowance) => Json::Object(vec![("allowance", (*allowance).into())]),
        Call::On { floor, call } => {
            let mut fields = vec![("on", Json::from(*floor))];
            if let Json::Object(more) = arguments_on(call) {
                fields.extend(more);
            }
            Json::Object(fields)
        }
    }
}

fn arguments_on(call: &OnFloor) -> Json {
    match call {
        OnFloor::Book { tile, canister } => booking(*tile, canister),
        OnFloor::BookAnywhere { tile, number } => tile_number(*tile, *number),
        OnFloor::Stop(tile) | OnFloor::Repair(tile) => Json::Object(vec![("tile", (*tile).into())]),
        OnFloor::Round => Json::Object(vec![]),
    }
}

/// What an accepted call gave.
pub fn answer(answer: &Answer) -> Json {
    match answer {
        Answer::Begun {
            settings,
            plan_ended,
        } => {
            let mut fields = settings_fields(settings);
            fields.push(("plan_ended", Json::Bool(*plan_ended)));
            Json::Object(fields)
        }
        Answer::Booked { tile, canister } => booking(*tile, canister),
        Answer::Listed(list) => Json::Object(vec![("entries", list.iter().map(listed).collect())]),
        Answer::Done => Json::Object(vec![]),
        Answer::Round(round) => round_object(round),
        Answer::Entered(entry) => Json::Object(entry_fields(entry)),
        Answer::Released {
            label,
            tile,
            canister,
        } => {
            let mut fields = vec![("label", Json::from(*label)), ("tile", (*tile).into())];
            fields.extend(canister_fields(canister));
            Json::Object(fields)
        }
        Answer::Put { plan_ended } => Json::Object(vec![("plan_ended", Json::Bool(*plan_ended))]),
    }
}

/// Why a call was denied: the papers' number, or null, and the words.
pub fn denial(denial: &Denial) -> Json {
    let number = denial.refusal().map(|refusal| Json::from(refusal.number()));
    Json::Object(vec![
        ("refusal", number.unwrap_or(Json::Null)),
        ("text", Json::Text(denial.to_string())),
    ])
}

/// What a floor was made with, by the binding's names.
pub fn settings_fields(settings: &Settings) -> Vec<(&'static str, Json)> {
    vec![
        ("columns", settings.columns.into()),
        ("rows", settings.rows.into()),
        ("hoppers", Json::numbers(tiles(settings.hoppers))),
        ("sources", Json::numbers(tiles(settings.sources))),
        ("width", settings.width.into()),
        ("length", settings.length.into()),
        ("gap", settings.gap.into()),
        ("travel", settings.travel.into()),
    ]
}

/// Number and place.
pub fn canister_fields(canister: &Canister) -> [(&'static str, Json); 3] {
    [
        ("number", canister.number.into()),
        ("a", canister.a.into()),
        ("b", canister.b.into()),
    ]
}

/// An entry of a plan, with its stage.
pub fn entry_fields(entry: &Entry) -> Vec<(&'static str, Json)> {
    let after = [entry.first, entry.second];
    let mut fields = vec![
        ("label", Json::from(entry.label)),
        ("tile", entry.tile.into()),
        (
            "after",
            Json::numbers(after.into_iter().filter(|label| *label != 0)),
        ),
    ];
    match entry.stage() {
        Stage::Waiting => fields.push(("stage", "waiting".into())),
        Stage::Booked(number) => {
            fields.push(("stage", "booked".into()));
            fields.push(("number", number.into()));
        }
        Stage::Delivered => {
            fields.push(("stage", "delivered".into()));
            fields.push(("number", entry.number.into()));
        }
    }
    fields
}

fn booking(tile: u32, canister: &Canister) -> Json {
    let mut fields = vec![("tile", Json::from(tile))];
    fields.extend(canister_fields(canister));
    Json::Object(fields)
}

fn tile_number(tile: u32, number: u32) -> Json {
    Json::Object(vec![("tile", tile.into()), ("number", number.into())])
}

fn listed(entry: &Booking) -> Json {
    let mut fields = vec![("tile", Json::from(entry.tile))];
    fields.extend(canister_fields(&entry.canister));
    fields.push(("refusal", entry.answer.into()));
    Json::Object(fields)
}

fn round_object(round: &Round) -> Json {
    let closed = round.closed.iter().map(|Closed { hopper, rate }| {
        Json::Object(vec![
            ("hopper", (*hopper).into()),
            ("rate", Json::Rate(*rate)),
        ])
    });
    Json::Object(vec![
        ("round", round.number.into()),
        ("deliveries", deliveries(&round.report)),
        ("closed", closed.collect()),
        ("labels", Json::numbers(round.labels.iter().copied())),
    ])
}

/// The numbers that each hopper took in.
pub fn deliveries(report: &Report) -> Json {
    let each = report.deliveries().map(|(hopper, numbers)| {
        Json::Object(vec![
            ("hopper", hopper.into()),
            ("numbers", Json::numbers(numbers.iter().copied())),
        ])
    });
    each.collect()
}

/// Bytes as hexadecimal digits.
pub fn hex(bytes: &[u8]) -> String {
    bytes.iter().map(|byte| format!("{byte:02x}")).collect()
}
