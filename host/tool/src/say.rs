//! Answers in plain words.

use std::fmt::Write;
use std::path::Path;

use ceromby::{tiles, Canister, Entry, Reason, Refusal, Settings, Side, Stage, Throughput, Tile};
use ceromby_session::{Call, Closed, Denial, Operation, Round};

/// Text as it can be shown on a terminal: every byte or character that isn't
/// printable is a `?`.
pub fn shown(bytes: &[u8]) -> String {
    let mut text = String::new();
    for chunk in bytes.utf8_chunks() {
        text.extend(chunk.valid().chars().map(printable));
        text.extend(chunk.invalid().iter().map(|_| '?'));
    }
    text
}

fn printable(c: char) -> char {
    let plain = c == ' ' || c.is_ascii_graphic() || (!c.is_ascii() && c.is_alphanumeric());
    if plain {
        c
    } else {
        '?'
    }
}

/// An error of the system without its number.
pub fn cause(error: &std::io::Error) -> String {
    let text = error.to_string();
    let end = text.find(" (os error").unwrap_or(text.len());
    text[..end].to_owned()
}

/// A file's name as it can be shown.
pub fn path(file: &Path) -> String {
    shown(file.as_os_str().as_encoded_bytes())
}

/// The beginning of a line about a floor of the barge.
pub fn on(floor: Option<u32>) -> String {
    floor.map_or_else(String::new, |floor| format!("on {floor}: "))
}

/// How many canisters.
pub fn amount(canisters: u32) -> String {
    counted(canisters.into(), "canister")
}

/// So many of something that adds an s.
pub fn counted(number: u64, thing: &str) -> String {
    let plural = if number == 1 { "" } else { "s" };
    format!("{number} {thing}{plural}")
}

/// Things with commas between them.
pub fn listed<T: ToString>(things: impl IntoIterator<Item = T>) -> String {
    let things: Vec<String> = things.into_iter().map(|thing| thing.to_string()).collect();
    things.join(", ")
}

/// The tiles of a set.
pub fn set(set: u64) -> String {
    listed(tiles(set))
}

/// Number and place.
pub fn canister(canister: &Canister) -> String {
    let Canister { number, a, b } = canister;
    format!("{number} at ({a}, {b})")
}

/// A floor by its tiles and hoppers.
pub fn made(settings: &Settings) -> String {
    let Settings { columns, rows, .. } = settings;
    let plural = if several(settings) { "s" } else { "" };
    let hoppers = set(settings.hoppers);
    format!("{columns} x {rows} tiles, hopper{plural} {hoppers}")
}

/// Whether a floor has more than one hopper.
pub fn several(settings: &Settings) -> bool {
    settings.hoppers.count_ones() > 1
}

/// ` at` and the hopper, where there are several.
fn at(several: bool, hopper: u32) -> String {
    if several {
        format!(" at {hopper}")
    } else {
        String::new()
    }
}

/// The counters of a floor and its rounds.
pub fn counters(operation: &Operation) -> String {
    let settings = operation.floor.settings();
    let counters = operation.floor.counters();
    let each = tiles(settings.hoppers).zip(counters.delivered);
    let delivered = listed(each.map(|(hopper, n)| format!("{n}{}", at(several(settings), hopper))));
    format!(
        "last {}, booked {}, delivered {delivered}, round {}",
        counters.last, counters.booked, operation.rounds
    )
}

/// What a round delivered: one line for the only hopper, or for each of several
/// that took something.
pub fn delivered(round: &Round, several: bool) -> Vec<String> {
    let number = round.number;
    let taken = round.report.deliveries();
    let taken = taken.filter(|(_, numbers)| !numbers.is_empty());
    let lines: Vec<String> = taken
        .map(|(hopper, numbers)| {
            let numbers: Vec<String> = numbers.iter().map(u32::to_string).collect();
            let colon = if several { ":" } else { "" };
            let at = at(several, hopper);
            format!("round {number}: delivered{at}{colon} {}", numbers.join(" "))
        })
        .collect();
    if lines.is_empty() {
        vec![format!("round {number}: delivered none")]
    } else {
        lines
    }
}

/// The rate of a window that a round closed.
pub fn window(round: u64, closed: &Closed, several: bool) -> String {
    let at = at(several, closed.hopper);
    format!(
        "round {round}: window closed{at}, rate {}",
        rate(closed.rate)
    )
}

/// Windows that weren't shown one by one.
pub fn same_windows(more: u64, up_to: u64, several: bool) -> String {
    let how = if several {
        "at each hopper, at the same rates"
    } else {
        "at the same rate"
    };
    format!("windows: {more} more closed {how}, up to round {up_to}")
}

/// Deliveries a round, exactly: 1 / 256 is 0.00390625.
pub fn rate(rate: f64) -> String {
    format!("{rate:.8}")
}

/// The closed rates and the open window of a hopper.
pub fn throughput(record: &Throughput, hopper: u32, several: bool) -> String {
    let rates = [record.last(), record.least(), record.greatest()];
    let closed = match rates.map(|each| each.map(rate)) {
        [Some(last), Some(least), Some(greatest)] => {
            format!("last {last}, least {least}, greatest {greatest}")
        }
        _ => "no window closed yet".to_owned(),
    };
    format!(
        "throughput{}: {closed}; open window: rounds {}, delivered {}",
        at(several, hopper),
        record.rounds(),
        record.deliveries()
    )
}

/// A side by its letter.
pub fn side(side: Option<Side>) -> &'static str {
    match side {
        Some(Side::West) => "W",
        Some(Side::South) => "S",
        Some(Side::North) => "N",
        Some(Side::East) => "E",
        None => "-",
    }
}

/// All that a tile has.
pub fn tile(number: u32, tile: &Tile) -> String {
    let mut text = format!("tile {number} ");
    if tile.is_running() {
        let distance = tile
            .distance()
            .map_or("--".to_owned(), |distance| distance.to_string());
        let (arrow, turn) = (side(tile.arrow()), side(tile.turn()));
        text += &format!("running, distance {distance}, arrow {arrow}, turn {turn}, ");
    } else {
        text += "stopped, ";
    }
    let canisters = tile.canisters();
    text += &counted(canisters.len() as u64, "canister");
    for each in canisters {
        let _ = write!(text, ", {}", canister(each));
    }
    text
}

/// Why a tile stood; nothing of an empty one.
pub fn reason(reason: Reason) -> Option<String> {
    let text = match reason {
        Reason::Empty => return None,
        Reason::Stopped => "stood: stopped".to_owned(),
        Reason::NoArrow => "stood: no arrow".to_owned(),
        Reason::Turn => "stood: the turn ahead was another's".to_owned(),
        Reason::NoGap { missing } => format!("stood: no gap ahead, {missing} mm missing"),
        Reason::Moved => "moved".to_owned(),
    };
    Some(text)
}

/// An entry of the plan.
pub fn entry(entry: &Entry) -> String {
    let mut text = format!("label {} on tile {}", entry.label, entry.tile);
    for before in [entry.first, entry.second] {
        if before != 0 {
            let _ = write!(text, " after {before}");
        }
    }
    text += &match entry.stage() {
        Stage::Waiting => ": waits".to_owned(),
        Stage::Booked(number) => format!(": booked, number {number}"),
        Stage::Delivered => format!(": delivered, number {}", entry.number),
    };
    text
}

/// What a refused call was about: 30 is said of several things.
#[derive(Clone, Copy, PartialEq, Eq, Debug)]
pub enum Subject {
    /// The floor at hand, or a file.
    Floor,
    /// The plan.
    Plan,
    /// A floor of the barge.
    Barge,
}

impl Subject {
    /// Of a call.
    pub fn of(call: &Call) -> Subject {
        match call {
            Call::Entry(_) | Call::Release(_) => Subject::Plan,
            Call::On { .. } => Subject::Barge,
            _ => Subject::Floor,
        }
    }
}

/// A refusal in a few words.
pub fn meaning(refusal: Refusal, subject: Subject) -> &'static str {
    match refusal {
        Refusal::Grid => "W or H outside 1 to 8, or a single tile",
        Refusal::Sets => {
            "not one to four hoppers, all on the floor, or a fill tile that is a hopper or no tile"
        }
        Refusal::NotASource => "not a fill tile",
        Refusal::StopOfHopper => "a hopper can't be stopped",
        Refusal::ImageEnds => "the image ends too soon, or not where it should",
        Refusal::OtherKind => "a record of another kind than the one due",
        Refusal::RecordShape => "a record's length or a fixed byte is wrong",
        Refusal::ImageMalformed => "the image's floor isn't well formed",
        Refusal::Malformed => match subject {
            Subject::Floor => "the floor isn't well formed",
            Subject::Plan => "the plan isn't sound",
            Subject::Barge => "the allowance isn't 1 to 4032, or a floor isn't there",
        },
        Refusal::Stopped => "the tile is stopped",
        Refusal::Running => "the tile is running",
        Refusal::NumberUsed => "number not above the last booked",
        Refusal::TooClose => "too near a canister of the tile",
        Refusal::BadName => "not a name of 1 to 8 letters A to Z",
        Refusal::NameNotHeld => "no layout has that name",
        Refusal::LayoutsFull => "eight other names are held",
        Refusal::BadLabel => {
            "the label is there already or not 1 to 64, or one to come before it is absent or not lower"
        }
        Refusal::NotReleased => "no such label waits, or one before it isn't delivered",
        Refusal::Overloaded => "the allowance is used up",
        other => other.text(),
    }
}

/// Why the call of that word was denied, without what explains it.
pub fn denied(word: &str, denial: &Denial, subject: Subject) -> String {
    match denial {
        Denial::Refused(refusal) => {
            let (number, meaning) = (refusal.number(), meaning(*refusal, subject));
            format!("{word}: refused {number}: {meaning}")
        }
        Denial::Holds(_) | Denial::BargeHolds { .. } => {
            format!("{word}: {denial}; {word}! gives it up")
        }
        Denial::NoFloor | Denial::NotOnBarge(_) | Denial::PlanFull => format!("{word}: {denial}"),
    }
}
