//! Calls about named layouts, and what the runs met of them.

use std::collections::BTreeMap;

use ::ceromby::raw as ceromby;
use oracle::random::{self, Rng};
use oracle::{Floor, Layout, MAX_LAYOUTS};

use crate::call::{Call, Outcome, Trouble, FORGET, KEEP, NAMES, RECALL};
use crate::{layout_damage, layout_images, makers};

/// A name as a call is handed it: eight bytes, or text through the binding.
#[derive(Clone, PartialEq, Debug)]
pub enum Name {
    Letters([u8; 8]),
    Text(String),
}

/// What a name can be; the first that fits.
const KINDS: [&str; 8] = [
    "no letter",
    "one letter",
    "two to seven",
    "eight",
    "nine or more",
    "lower case",
    "letter after the filling",
    "other bytes",
];

impl Name {
    /// The letters, if it is 1 to 8 letters A to Z, zero filled where it has eight bytes.
    pub fn letters(&self) -> Option<String> {
        let bytes = match self {
            Name::Letters(bytes) => {
                let end = bytes.iter().rposition(|byte| *byte != 0);
                &bytes[..end.map_or(0, |end| end + 1)]
            }
            Name::Text(text) => text.as_bytes(),
        };
        let fits = (1..=8).contains(&bytes.len()) && bytes.iter().all(u8::is_ascii_uppercase);
        fits.then(|| bytes.iter().map(|byte| char::from(*byte)).collect())
    }

    /// Its place among `KINDS`.
    fn kind(&self) -> usize {
        let bytes = match self {
            Name::Letters(bytes) => &bytes[..],
            Name::Text(text) => text.as_bytes(),
        };
        let text = matches!(self, Name::Text(_));
        match self.letters().map_or(0, |letters| letters.len()) {
            1 => 1,
            2..=7 => 2,
            8 => 3,
            _ if bytes.iter().all(|byte| *byte == 0) => 0,
            _ if bytes.iter().all(u8::is_ascii_uppercase) => 4,
            _ if bytes.iter().all(u8::is_ascii_alphabetic) => 5,
            _ if !text && bytes.iter().any(u8::is_ascii_lowercase) => 5,
            _ if !text && bytes.iter().all(|b| *b == 0 || b.is_ascii_uppercase()) => 6,
            _ => 7,
        }
    }
}

/// Whether a recall, by the floor before it, stops tiles and repairs some.
fn needed(before: &Floor, set: u64) -> (bool, bool) {
    let tiles = 0..before.settings.tile_count();
    let runs = |tile: usize| before.tiles[tile].running == 1;
    let asked = |tile: usize| set >> tile & 1 == 1;
    let stops = tiles.clone().any(|tile| runs(tile) && !asked(tile));
    let repairs = tiles.clone().any(|tile| !runs(tile) && asked(tile));
    (stops, repairs)
}

const KEEPS: [&str; 4] = ["new", "replacing", "replacing with eight held", "eighth"];
const FORGETS: [&str; 4] = ["first place", "middle", "last", "only"];
const RECALLS: [&str; 4] = ["nothing", "repairs", "stops", "both"];
const WITHIN: [&str; 3] = ["keep", "forget", "recall"];

#[derive(Default)]
pub struct Counts {
    /// By call and kind, on well-formed floors.
    names: [[u64; KINDS.len()]; 3],
    keeps: [u64; KEEPS.len()],
    forgets: [u64; FORGETS.len()],
    recalls: [u64; RECALLS.len()],
    /// Accepted between the rounds of a list held to the bound.
    within: [u64; WITHIN.len()],
    /// Rounds by the number of layouts that the floor has.
    rounds: [u64; MAX_LAYOUTS + 1],
    pub damage: layout_damage::Counts,
    pub images: layout_images::Counts,
}

impl Counts {
    pub fn note_round(&mut self, before: &Floor) {
        self.rounds[before.layout_count().min(MAX_LAYOUTS)] += 1;
    }

    /// Notes a call between the rounds of a list held to the bound.
    pub fn note_within(&mut self, call: &Call, refusal: u8) {
        if let (Some((at, _)), 0) = (call.layout(), refusal) {
            self.within[at] += 1;
        }
    }

    pub fn note(&mut self, before: &Floor, call: &Call, refusal: u8) {
        let Some((at, name)) = call.layout() else {
            return;
        };
        if refusal != 30 {
            self.names[at][name.kind()] += 1;
        }
        if refusal != 0 {
            return;
        }
        let count = before.layout_count();
        let place = held(before)
            .keys()
            .position(|held| Some(held) == name.letters().as_ref());
        match (call, place) {
            (Call::Keep { .. }, Some(_)) => {
                self.keeps[1 + usize::from(count == MAX_LAYOUTS)] += 1;
            }
            (Call::Keep { .. }, None) => {
                self.keeps[if count + 1 == MAX_LAYOUTS { 3 } else { 0 }] += 1;
            }
            (Call::Forget { .. }, Some(place)) => {
                self.forgets[match place {
                    _ if count == 1 => 3,
                    0 => 0,
                    last if last + 1 == count => 2,
                    _ => 1,
                }] += 1;
            }
            (Call::Recall { .. }, Some(place)) => {
                let (stops, repairs) = needed(before, before.layouts[place].set);
                self.recalls[2 * usize::from(stops) + usize::from(repairs)] += 1;
            }
            _ => {}
        }
    }

    pub fn add(&mut self, more: &Counts) {
        let add = |counts: &mut [u64], more: &[u64]| {
            for (count, more) in counts.iter_mut().zip(more) {
                *count += more;
            }
        };
        for (names, more) in self.names.iter_mut().zip(&more.names) {
            add(names, more);
        }
        add(&mut self.keeps, &more.keeps);
        add(&mut self.forgets, &more.forgets);
        add(&mut self.recalls, &more.recalls);
        add(&mut self.within, &more.within);
        add(&mut self.rounds, &more.rounds);
        add(&mut self.damage.0, &more.damage.0);
        self.images.add(&more.images);
    }

    /// Lines of counts, each with its name.
    pub fn lines(&self) -> Vec<(String, Vec<(&'static str, u64)>)> {
        let line = |name: &str, names: &[&'static str], counts: &[u64]| {
            let cells = names.iter().copied().zip(counts.iter().copied());
            (name.to_string(), cells.collect())
        };
        let mut lines = Vec::new();
        for (at, counts) in self.names.iter().enumerate() {
            let name = format!("names at {}:", NAMES[KEEP + at]);
            lines.push(line(&name, &KINDS, counts));
        }
        lines.push(line("keep:", &KEEPS, &self.keeps));
        lines.push(line("forget:", &FORGETS, &self.forgets));
        lines.push(line("recall makes:", &RECALLS, &self.recalls));
        lines.push(line("in lists held to the bound:", &WITHIN, &self.within));
        let numbers = ["0", "1", "2", "3", "4", "5", "6", "7", "8"];
        lines.push(line("rounds by layouts:", &numbers, &self.rounds));
        lines.push(self.damage.line());
        lines.extend(self.images.lines());
        lines
    }
}

/// The layouts that a well-formed floor holds.
pub fn held(floor: &Floor) -> BTreeMap<String, u64> {
    let used = floor.layouts.iter().filter(|layout| layout.name != 0);
    let letters = |layout: &Layout| Name::Letters(layout.letters()).letters();
    used.filter_map(|layout| Some((letters(layout)?, layout.set)))
        .collect()
}

fn broken(text: String) -> Result<(), Trouble> {
    Err(Trouble::promise("layouts", text))
}

/// Holds a call about layouts to what the floor before it asks for.
pub fn check(before: &Floor, call: &Call, outcome: &Outcome) -> Result<(), Trouble> {
    let (Some((at, name)), Outcome::Answer(answer)) = (call.layout(), outcome) else {
        return Ok(());
    };
    if answer.refusal == 30 {
        return Ok(());
    }
    let mut layouts = held(before);
    let letters = name.letters();
    let known = letters
        .as_ref()
        .is_some_and(|name| layouts.contains_key(name));
    let due = match at + KEEP {
        _ if letters.is_none() => 44,
        FORGET | RECALL if !known => 45,
        KEEP if !known && layouts.len() == MAX_LAYOUTS => 46,
        _ => 0,
    };
    if answer.refusal != due {
        return broken(format!(
            "{} answers {}, not {due}",
            call.name(),
            answer.refusal
        ));
    }
    let Some(letters) = letters.filter(|_| due == 0) else {
        return Ok(());
    };
    let mut rest = answer.floor;
    match call {
        Call::Keep { .. } => drop(layouts.insert(letters, running(before))),
        Call::Forget { .. } => drop(layouts.remove(&letters)),
        _ => {
            singly(before, layouts[&letters], &answer.floor)?;
            rest.tiles = before.tiles;
        }
    }
    if held(&rest) != layouts || rest.layout_count() != layouts.len() {
        return broken(format!("{} holds other layouts", call.name()));
    }
    rest.layouts = before.layouts;
    match rest == *before {
        true => Ok(()),
        false => broken(format!("{} changes something else", call.name())),
    }
}

/// The tiles that run, as a set.
pub fn running(floor: &Floor) -> u64 {
    let tiles = 0..floor.settings.tile_count();
    let runs = tiles.filter(|tile| floor.tiles[*tile].running == 1);
    runs.fold(0, |set, tile| set | 1 << tile)
}

/// Makes the stops and repairs by the library's single calls. Tiles that are
/// as the layout says stay as they were.
fn singly(before: &Floor, set: u64, after: &Floor) -> Result<(), Trouble> {
    let mut floor = convert::to_floor(before);
    for tile in 0..before.settings.tile_count() {
        let number = tile as u32;
        let answer = match (before.tiles[tile].running, set >> tile & 1) {
            (1, 0) => ceromby::stop(&floor, number),
            (0, 1) => ceromby::repair(&floor, number),
            _ if after.tiles[tile] == before.tiles[tile] => continue,
            _ => return broken(format!("recall changes tile {tile}")),
        };
        if answer.refusal != 0 {
            return broken(format!("tile {tile} alone answers {}", answer.refusal));
        }
        floor = answer.floor;
    }
    match floor == convert::to_floor(after) {
        true => Ok(()),
        false => broken("recall isn't its single stops and repairs".into()),
    }
}

/// Any name, often one that the floor holds, at times none at all; as text or
/// as bytes.
pub fn any_name(rng: &mut Rng, floor: &Floor) -> Name {
    let good = random::name_for(rng, floor);
    let text = |bytes: &[u8]| bytes.iter().map(|byte| char::from(*byte)).collect();
    match rng.below(16) {
        0 | 1 => Name::Letters(random::bad_name(rng)),
        2 => Name::Text(long_name(rng, good)),
        3 => Name::Text(
            rng.pick(&["", "a", "net s", "Ä", "A\0", "nets", "NETS1"])
                .into(),
        ),
        4..=9 => Name::Letters(good),
        _ => {
            let end = good.iter().position(|byte| *byte == 0).unwrap_or(8);
            Name::Text(text(&good[..end]))
        }
    }
}

/// Nine letters or more; the first eight are a name that may be held.
fn long_name(rng: &mut Rng, good: [u8; 8]) -> String {
    let letters = good.into_iter().filter(|byte| *byte != 0);
    let mut name: String = letters.map(char::from).collect();
    let length = rng.pick(&[9, 9, 10, 16, 40]);
    while name.len() < length {
        name.push(char::from(rng.range(b'A'.into(), b'Z'.into()) as u8));
    }
    name
}

pub fn any_call(rng: &mut Rng, floor: &Floor) -> Call {
    let name = any_name(rng, floor);
    match rng.below(5) {
        0 | 1 => Call::Keep { name },
        2 => Call::Forget { name },
        _ => Call::Recall { name },
    }
}

/// A call of a list about layouts: those three, with stops, repairs, rounds
/// and images between them.
pub fn list_call(rng: &mut Rng, floor: &Floor) -> Call {
    let tiles = floor.settings.tile_count() as u64;
    let tile = rng.below(tiles) as u32;
    match rng.below(16) {
        0..=3 => makers::call(rng, floor),
        4 | 5 => Call::Stop { tile },
        6 => Call::Repair { tile },
        7 => makers::loading(rng, floor),
        8 | 9 => Call::Round,
        10 => Call::Keep {
            name: Name::Letters(random::name(rng)),
        },
        _ => any_call(rng, floor),
    }
}
