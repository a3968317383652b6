//! Prints cases.

use std::fmt::Write;

use oracle::{Booking, Canister, Floor, Layout, Settings, Tile};

use crate::call::Call;
use crate::layouts::Name;
use crate::runs::Case;
use crate::{plans, throughput};

fn settings(s: &Settings) -> String {
    format!(
        "W {} H {} {} fill {:#x} U {} l {} r {} v {}",
        s.columns,
        s.rows,
        hoppers(s),
        s.sources,
        s.width,
        s.length,
        s.gap,
        s.travel
    )
}

fn hoppers(settings: &Settings) -> String {
    let tiles: Vec<String> = settings.hopper_tiles().map(|at| at.to_string()).collect();
    match tiles.len() {
        0 => "no hopper".into(),
        1 => format!("hopper {}", tiles[0]),
        2..=8 => format!("hoppers {}", tiles.join(" ")),
        _ => format!("hoppers {:#x}", settings.hoppers),
    }
}

/// The counters of the hoppers, those of no hopper too where one isn't zero.
fn delivered(floor: &Floor) -> String {
    let counts = &floor.counters.delivered;
    let used = floor.settings.hopper_count().clamp(1, counts.len());
    let shown = match counts[used..].iter().all(|count| *count == 0) {
        true => &counts[..used],
        false => counts,
    };
    let counts: Vec<String> = shown.iter().map(|count| count.to_string()).collect();
    counts.join(" ")
}

fn canister(c: &Canister) -> String {
    format!("{} at ({}, {})", c.number, c.a, c.b)
}

fn floor(floor: &Floor) -> String {
    if *floor == Floor::ZERO {
        return "  the all-zero floor\n".into();
    }
    let c = &floor.counters;
    let mut text = format!(
        "  {}; last {} booked {} delivered {}\n",
        settings(&floor.settings),
        c.last,
        c.booked,
        delivered(floor)
    );
    for (at, tile) in floor.tiles.iter().enumerate() {
        let places = floor.places(at);
        let held = places.iter().any(|place| *place != Canister::ZERO);
        if *tile == Tile::ZERO && !held {
            continue;
        }
        let _ = write!(
            text,
            "  tile {at}: running {} distance {} arrow {} turn {} count {}",
            tile.running, tile.distance, tile.next, tile.token, tile.count
        );
        for (at, place) in places.iter().enumerate() {
            if *place != Canister::ZERO {
                let _ = write!(text, "; [{at}] {}", canister(place));
            }
        }
        text.push('\n');
    }
    for (at, layout) in floor.layouts.iter().enumerate() {
        if *layout != Layout::ZERO {
            let name = bytes_of(&layout.letters());
            let _ = writeln!(text, "  layout {at}: {name} set {:#x}", layout.set);
        }
    }
    text
}

/// Without the zero filling.
fn bytes_of(bytes: &[u8]) -> String {
    let end = bytes.iter().rposition(|byte| *byte != 0);
    let used = &bytes[..end.map_or(0, |end| end + 1)];
    format!("\"{}\"", used.escape_ascii())
}

fn name(name: &Name) -> String {
    match name {
        Name::Letters(letters) => bytes_of(letters),
        Name::Text(text) => format!("{text:?} as text"),
    }
}

fn call(call: &Call) -> String {
    match call {
        Call::Fresh { settings: s } => format!("fresh {}", settings(s)),
        Call::Book { tile, canister: c } => format!("book on tile {tile}: {}", canister(c)),
        Call::BookAnywhere { tile, number } => {
            format!("book number {number} anywhere on tile {tile}")
        }
        Call::BookList { list } => {
            let entry = |entry: &Booking| {
                let (tile, canister) = (entry.tile, canister(&entry.canister));
                format!(
                    "\n    on tile {tile}: {canister}, answer {} before",
                    entry.answer
                )
            };
            let entries: String = list.iter().map(entry).collect();
            format!("book a list of {}:{entries}", list.len())
        }
        Call::Stop { tile } => format!("stop tile {tile}"),
        Call::Repair { tile } => format!("repair tile {tile}"),
        Call::Round => "round".into(),
        Call::Keep { name: n } => format!("keep {}", name(n)),
        Call::Forget { name: n } => format!("forget {}", name(n)),
        Call::Recall { name: n } => format!("recall {}", name(n)),
        Call::Read { tile } => format!("read tile {tile}"),
        Call::Write { size } => format!("write to {size} bytes"),
        Call::Load { bytes } => {
            let hex: Vec<String> = bytes.iter().map(|byte| format!("{byte:02x}")).collect();
            format!("load {} bytes: {}", bytes.len(), hex.join(" "))
        }
        Call::Feed { record, count } => throughput::show(record, *count),
        Call::Page { size } => format!("page to {size} bytes"),
        Call::Bound => "bound".into(),
        Call::Offer { .. } | Call::Release { .. } | Call::Report { .. } => plans::show(call),
        Call::Barge(named) => {
            let floors = named.barge.floors.iter().enumerate();
            let each = |(at, one): (usize, &Floor)| format!("\n  floor {at}:\n{}", floor(one));
            let floors: String = floors.map(each).collect();
            let (number, allowance) = (named.floor, named.barge.allowance);
            let made = self::call(&named.call);
            format!("on floor {number}, {made}, with an allowance of {allowance}{floors}")
        }
    }
}

pub fn case(case: &Case) -> String {
    let mut text = floor(&case.first);
    for made in &case.calls {
        let _ = writeln!(text, "  {}", call(made));
    }
    if case.drain {
        text += "  rounds until all that can go is delivered\n";
    }
    text
}

/// The size of a case in a few words.
#[cfg(feature = "faults")]
pub fn size(case: &Case) -> String {
    match case.calls.last() {
        Some(Call::Load { bytes }) => format!("{} bytes", bytes.len()),
        Some(Call::Fresh { settings: s }) => settings(s),
        Some(Call::Feed { record, count }) => throughput::show(record, *count),
        Some(call) if plans::size(call).is_some() => plans::size(call).unwrap_or_default(),
        Some(Call::Barge(named)) => {
            let sides = |floor: &Floor| {
                let s = &floor.settings;
                let held: u32 = floor.tiles.iter().map(|t| u32::from(t.count)).sum();
                format!("{} x {}, {held} canisters", s.columns, s.rows)
            };
            let floors: Vec<String> = named.barge.floors.iter().map(sides).collect();
            let (floors, allowance) = (floors.join("; "), named.barge.allowance);
            format!("{floors}; allowance {allowance}, floor {}", named.floor)
        }
        last => {
            let list = match last {
                Some(Call::BookList { list }) => format!(", a list of {}", list.len()),
                _ => String::new(),
            };
            let s = &case.first.settings;
            let held: u32 = case.first.tiles.iter().map(|t| u32::from(t.count)).sum();
            let calls = case.calls.len();
            let more = match calls {
                0 | 1 => String::new(),
                _ => format!(", {calls} calls"),
            };
            format!(
                "{} x {} tiles, {held} canisters{list}{more}",
                s.columns, s.rows
            )
        }
    }
}
