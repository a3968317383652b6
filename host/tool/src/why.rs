//! What explains a denial: which measure, tile or canister it was, and by how
//! much.

use ceromby::{
    tiles, Canister, Entry, Floor, Name, Plan, Refusal, Settings, Stage, FLOORS, MAX_ALLOWANCE,
    MAX_LABEL,
};
use ceromby_session::{Call, Denial, OnFloor, Session};

use crate::{say, show};

/// What explains that a call was denied, where there is more to say. The session
/// is that before the call, and after it.
pub fn explain(session: &Session, call: &Call, denial: &Denial) -> Option<String> {
    let refusal = match denial {
        Denial::Refused(refusal) => *refusal,
        Denial::NotOnBarge(_) => return Some(aboard(session)),
        _ => return None,
    };
    match call {
        Call::Fresh { settings, .. } => fresh(settings, refusal),
        Call::Load { image, .. } => load(image, refusal),
        Call::Keep(name) | Call::Recall(name) | Call::Forget(name) => {
            layout(&session.hand()?.floor, name, refusal)
        }
        Call::Entry(entry) => entered(session.plan(), entry, refusal),
        Call::Release(label) => released(session, *label, refusal),
        Call::On { floor, call } => on_barge(session, *floor, call, refusal),
        _ => about_a_floor(&session.hand()?.floor, &on_floor(call)?, refusal),
    }
}

/// What explains that a question about a floor was denied.
pub fn question(session: &Session, floor: Option<u32>, denial: &Denial) -> Option<String> {
    match denial {
        Denial::NotOnBarge(_) => Some(aboard(session)),
        Denial::Refused(Refusal::NoTile) => {
            let there = show::operation(session, floor).ok()?;
            Some(tiles_of(there.floor.settings()))
        }
        _ => None,
    }
}

/// What explains that a booking was refused. The floor is that before it; a
/// booking without a place has none.
pub fn booking(
    floor: &Floor,
    tile: u32,
    number: u32,
    place: Option<Canister>,
    refusal: Refusal,
) -> Option<String> {
    let settings = floor.settings();
    match refusal {
        Refusal::NoTile => Some(tiles_of(settings)),
        Refusal::NotASource => Some(sources_of(settings)),
        Refusal::NumberZero => Some("the lowest is 1".to_owned()),
        Refusal::Outside => outside(settings, &place?),
        Refusal::Stopped => Some(format!("repair {tile} sets it running")),
        Refusal::NumberUsed => {
            let last = floor.counters().last;
            Some(format!("{number} isn't above {last}"))
        }
        Refusal::TooClose => in_the_way(floor, tile, &place?),
        Refusal::NoPlace => full(floor, tile),
        _ => None,
    }
}

/// A call on the floor at hand as one on any floor.
fn on_floor(call: &Call) -> Option<OnFloor> {
    match call {
        Call::Book { tile, canister } => Some(OnFloor::Book {
            tile: *tile,
            canister: *canister,
        }),
        Call::BookAnywhere { tile, number } => Some(OnFloor::BookAnywhere {
            tile: *tile,
            number: *number,
        }),
        Call::Stop(tile) => Some(OnFloor::Stop(*tile)),
        Call::Repair(tile) => Some(OnFloor::Repair(*tile)),
        Call::Round => Some(OnFloor::Round),
        _ => None,
    }
}

fn about_a_floor(floor: &Floor, call: &OnFloor, refusal: Refusal) -> Option<String> {
    match call {
        OnFloor::Book { tile, canister } => {
            booking(floor, *tile, canister.number, Some(*canister), refusal)
        }
        OnFloor::BookAnywhere { tile, number } => booking(floor, *tile, *number, None, refusal),
        OnFloor::Stop(_) | OnFloor::Repair(_) => {
            (refusal == Refusal::NoTile).then(|| tiles_of(floor.settings()))
        }
        OnFloor::Round => None,
    }
}

fn on_barge(session: &Session, floor: u32, call: &OnFloor, refusal: Refusal) -> Option<String> {
    match refusal {
        Refusal::Malformed => Some(unsound(session)),
        Refusal::Overloaded => {
            let (total, allowance) = (total(session), session.allowance());
            Some(format!("{total} aboard, {allowance} allowed"))
        }
        _ => about_a_floor(&session.aboard(floor)?.floor, call, refusal),
    }
}

/// The canisters on the barge's floors.
pub fn total(session: &Session) -> u32 {
    let floors = (0..FLOORS as u32).filter_map(|floor| session.aboard(floor));
    floors.map(|there| there.floor.aboard()).sum()
}

/// What the barge lacks.
fn unsound(session: &Session) -> String {
    let allowance = session.allowance();
    let mut lacks = Vec::new();
    if !(1..=MAX_ALLOWANCE).contains(&allowance) {
        lacks.push(format!("the allowance is {allowance}"));
    }
    let absent = (0..FLOORS as u32).filter(|floor| session.aboard(*floor).is_none());
    let absent = say::listed(absent);
    if !absent.is_empty() {
        lacks.push(format!("no floor {absent}"));
    }
    lacks.join("; ")
}

/// The floors that the barge has.
fn aboard(session: &Session) -> String {
    let there = (0..FLOORS as u32).filter(|floor| session.aboard(*floor).is_some());
    match say::listed(there) {
        none if none.is_empty() => "it has none; put moves one there".to_owned(),
        floors => format!("it has {floors}"),
    }
}

/// `fresh`: which of W, H and C, which set and tile, which measure.
fn fresh(settings: &Settings, refusal: Refusal) -> Option<String> {
    match refusal {
        Refusal::Grid => Some(grid(settings)),
        Refusal::Sets => Some(sets(settings)),
        Refusal::Measure => Some(measures(settings)),
        _ => None,
    }
}

/// A number that may have been cut to what its type holds.
fn byte(number: u8) -> String {
    match number {
        u8::MAX => format!("{number} or more"),
        _ => number.to_string(),
    }
}

fn short(number: u16) -> String {
    match number {
        u16::MAX => format!("{number} or more"),
        _ => number.to_string(),
    }
}

fn grid(settings: &Settings) -> String {
    let Settings { columns, rows, .. } = *settings;
    let sides = [("W", columns), ("H", rows)];
    let outside = sides.iter().filter(|(_, side)| !(1..=8).contains(side));
    let outside = say::listed(outside.map(|(name, side)| format!("{name} is {}", byte(*side))));
    if outside.is_empty() {
        "C = W x H is 1, and has to be at least 2".to_owned()
    } else {
        outside
    }
}

/// The tiles that a floor has.
fn tiles_of(settings: &Settings) -> String {
    format!("the floor has 0 to {}", count(settings).saturating_sub(1))
}

fn count(settings: &Settings) -> u32 {
    u32::from(settings.columns) * u32::from(settings.rows)
}

fn sources_of(settings: &Settings) -> String {
    match settings.sources {
        0 => "the floor has no fill tiles".to_owned(),
        sources => format!("fill tiles: {}", say::set(sources)),
    }
}

fn sets(settings: &Settings) -> String {
    let Settings {
        hoppers, sources, ..
    } = *settings;
    let absent = |set: u64| tiles(set).find(|tile| *tile >= count(settings));
    if hoppers.count_ones() > 4 {
        return format!("{} hoppers: {}", hoppers.count_ones(), say::set(hoppers));
    }
    if let Some(tile) = absent(hoppers) {
        return format!("hopper {tile} is no tile; {}", tiles_of(settings));
    }
    if let Some(tile) = tiles(hoppers & sources).next() {
        return format!("fill tile {tile} is a hopper");
    }
    match absent(sources) {
        Some(tile) => format!("fill tile {tile} is no tile; {}", tiles_of(settings)),
        None => "no hopper".to_owned(),
    }
}

/// Every rule of measures that is broken, and by how much.
fn measures(settings: &Settings) -> String {
    let [width, length, gap, travel] = [
        settings.width,
        settings.length,
        settings.gap,
        settings.travel,
    ];
    let [side, l, v] = [width, length, travel].map(u32::from);
    let d = l + u32::from(gap);
    let mut broken = Vec::new();
    if !(2..=60_000).contains(&width) {
        broken.push(format!("U is {}, and has to be 2 to 60000", short(width)));
    }
    if travel == 0 {
        broken.push("v is 0, and has to be at least 1".to_owned());
    }
    if v >= l {
        broken.push(format!("v must be below l: {v} is {} too much", v - l + 1));
    }
    if d >= side {
        let excess = d - side + 1;
        broken.push(format!("l + r must be below U: {d} is {excess} too much"));
    } else if let Some(along) = (side - l).checked_div(d).filter(|along| *along > 3) {
        broken.push(format!(
            "(U - l) div (l + r) must be at most 3: {} div {d} is {along}",
            side - l
        ));
    }
    broken.join("; ")
}

fn load(image: &[u8], refusal: Refusal) -> Option<String> {
    let length = say::counted(image.len() as u64, "byte");
    (refusal == Refusal::ImageEnds).then(|| format!("it has {length}"))
}

fn outside(settings: &Settings, place: &Canister) -> Option<String> {
    let most = settings.width.checked_sub(settings.length)?;
    let over = [("a", place.a), ("b", place.b)];
    let over = over.into_iter().filter(|(_, at)| *at > most);
    let over = say::listed(over.map(|(name, at)| format!("{name} is {}", short(at))));
    Some(format!("{over}, at most {most}"))
}

/// The canister that a booking is too near to.
fn in_the_way(floor: &Floor, tile: u32, place: &Canister) -> Option<String> {
    let settings = floor.settings();
    let d = u32::from(settings.length) + u32::from(settings.gap);
    let apart = |other: &Canister| {
        let (a, b) = (other.a.abs_diff(place.a), other.b.abs_diff(place.b));
        (u32::from(a), u32::from(b))
    };
    let read = floor.read(tile).ok()?;
    let near = read.canisters().iter().find(|other| {
        let (a, b) = apart(other);
        a < d && b < d
    })?;
    let (a, b) = apart(near);
    let near = say::canister(near);
    Some(format!(
        "{near} is {a} mm away in a and {b} in b, and one has to be {d} or more"
    ))
}

/// How many canisters leave no place.
fn full(floor: &Floor, tile: u32) -> Option<String> {
    let canisters = floor.read(tile).ok()?.canisters().len() as u64;
    let canisters = say::counted(canisters, "canister");
    Some(format!(
        "tile {tile} has {canisters}, and only a round makes room"
    ))
}

/// A layout's name that is none, isn't held, or finds no room.
fn layout(floor: &Floor, name: &Name, refusal: Refusal) -> Option<String> {
    let names = say::listed(floor.layouts().map(|layout| layout.letters()));
    match refusal {
        Refusal::BadName => Some(bad_name(name)),
        Refusal::NameNotHeld if names.is_empty() => Some("none is held".to_owned()),
        Refusal::NameNotHeld => Some(format!("held are {names}")),
        Refusal::LayoutsFull => Some(names),
        _ => None,
    }
}

/// A name of more than eight letters comes as none.
fn bad_name(name: &Name) -> String {
    let letters = name.letters.iter();
    let other = letters
        .take_while(|letter| **letter != 0)
        .find(|letter| !letter.is_ascii_uppercase());
    match other {
        Some(letter) => format!("{} isn't A to Z", say::shown(&[*letter])),
        None => "it has more than 8, or none".to_owned(),
    }
}

/// An entry that a plan can't have.
fn entered(plan: &Plan, entry: &Entry, refusal: Refusal) -> Option<String> {
    let label = entry.label;
    let find = |label: u8| plan.entries().iter().find(|other| other.label == label);
    if find(label).is_some() {
        return Some(format!("label {label} is there already"));
    }
    if refusal != Refusal::BadLabel {
        return None;
    }
    if !(1..=MAX_LABEL).contains(&label) {
        return Some(format!("the label is {}", byte(label)));
    }
    let before = [entry.first, entry.second].into_iter();
    let wrong = before.filter(|first| *first != 0).find_map(|first| {
        if first >= label {
            Some(format!("{} isn't lower than {label}", byte(first)))
        } else if find(first).is_none() {
            Some(format!("the plan has no label {first} yet"))
        } else {
            None
        }
    });
    wrong
}

/// A release that was refused: by the plan, or as a booking is.
fn released(session: &Session, label: u8, refusal: Refusal) -> Option<String> {
    let entries = session.plan().entries();
    let find = |label: u8| entries.iter().find(|entry| entry.label == label);
    let entry = find(label);
    if refusal != Refusal::NotReleased {
        let floor = &session.hand()?.floor;
        let number = floor.counters().last.saturating_add(1);
        return booking(floor, entry?.tile, number, None, refusal);
    }
    let Some(entry) = entry else {
        return Some(format!("the plan has no label {}", byte(label)));
    };
    match entry.stage() {
        Stage::Booked(number) => Some(format!("label {label} is booked, number {number}")),
        Stage::Delivered => Some(format!("label {label} is delivered already")),
        Stage::Waiting => {
            let before = [entry.first, entry.second].into_iter();
            let open = before
                .filter_map(find)
                .find(|before| before.stage() != Stage::Delivered);
            open.map(|before| format!("label {label} waits for label {}", before.label))
        }
    }
}
