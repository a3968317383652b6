//! Layouts in images: damage, what the runs met, and what a load must make of them.

use ::ceromby::raw as ceromby;
use oracle::random::{self, Rng};
use oracle::{Layout, MAX_LAYOUTS};

use crate::call::{Outcome, Trouble};
use crate::first::First;
use crate::images::{borders, put};

/// The faults that an image's layouts can have, each with its refusal.
const FAULTS: [(&str, u8); 12] = [
    ("bad letter (12)", 12),
    ("empty name (12)", 12),
    ("all zero (12)", 12),
    ("letter after the filling (12)", 12),
    ("lowest hopper lacking (12)", 12),
    ("another hopper lacking (12)", 12),
    ("bit for no tile (12)", 12),
    ("unsorted (12)", 12),
    ("repeated (12)", 12),
    ("ninth (10)", 10),
    ("after a tile (10)", 10),
    ("another length (11)", 11),
];
const NINTH: usize = 9;
const LATE: usize = 10;
const LENGTH: usize = 11;

/// Bytes of a layout's record, with its head.
const RECORD: usize = 20;

/// The records of kind 5 of an image whose first two records are whole.
pub struct Records {
    /// Start and end of those in their place, after the second record.
    pub placed: Vec<(usize, usize)>,
    /// The same of those elsewhere after that.
    late: Vec<(usize, usize)>,
    /// Where they may stand.
    start: usize,
    first: First,
}

impl Records {
    pub fn of(bytes: &[u8]) -> Option<Records> {
        let first = First::of(bytes)?;
        let borders = borders(bytes);
        let start = *borders.get(2)?;
        let kind = |at: usize| bytes.get(at + 2..at + 4) == Some(&[5, 0]);
        let mut records = borders[2..].windows(2).map(|pair| (pair[0], pair[1]));
        let mut placed = Vec::new();
        let after = records.by_ref().find(|record| {
            let fits = kind(record.0);
            placed.extend(fits.then_some(*record));
            !fits
        });
        let late = after.into_iter().chain(records);
        Some(Records {
            late: late.filter(|record| kind(record.0)).collect(),
            placed,
            start,
            first,
        })
    }

    /// The image without some records.
    fn without(bytes: &[u8], records: &[(usize, usize)]) -> Vec<u8> {
        let mut less = bytes.to_vec();
        for (start, end) in records.iter().rev() {
            less.drain(start..end);
        }
        less
    }

    /// What is wrong with the layouts, by places among `FAULTS`.
    fn faults(&self, bytes: &[u8]) -> Vec<usize> {
        let layouts = self.layouts(bytes);
        let mut faults = Vec::new();
        faults.extend(layouts.iter().flat_map(|layout| self.layout_faults(layout)));
        for pair in layouts.windows(2) {
            let (one, other) = (pair[0].name, pair[1].name);
            faults.extend((one > other && other != 0).then_some(7));
            faults.extend((one == other && one != 0).then_some(8));
        }
        faults.extend((self.placed.len() > MAX_LAYOUTS).then_some(NINTH));
        faults.extend((!self.late.is_empty()).then_some(LATE));
        faults.extend((layouts.len() < self.placed.len()).then_some(LENGTH));
        faults.sort_unstable();
        faults.dedup();
        faults
    }

    /// Those of the right length, as they are.
    fn layouts(&self, bytes: &[u8]) -> Vec<Layout> {
        let whole = self
            .placed
            .iter()
            .filter(|(start, end)| end - start == RECORD);
        let word = |at: usize| bytes[at..at + 8].try_into().unwrap_or([0; 8]);
        whole
            .map(|(start, _)| Layout {
                name: u64::from_be_bytes(word(start + 4)),
                set: u64::from_le_bytes(word(start + 12)),
            })
            .collect()
    }

    fn layout_faults(&self, layout: &Layout) -> Vec<usize> {
        let letters = layout.letters();
        let used = letters.iter().rposition(|byte| *byte != 0);
        let used = &letters[..used.map_or(0, |last| last + 1)];
        if *layout == Layout::ZERO {
            return vec![2];
        }
        let strange = |byte: &u8| *byte != 0 && !byte.is_ascii_uppercase();
        let hoppers = self.first.hoppers;
        let lowest = hoppers & hoppers.wrapping_neg();
        let tests = [
            (0, used.iter().any(strange)),
            (1, used.is_empty()),
            (3, !used.iter().any(strange) && used.contains(&0)),
            (4, layout.set & lowest != lowest),
            (5, hoppers & !lowest & !layout.set != 0),
            (6, layout.set & !self.first.on_floor != 0),
        ];
        let found = tests.into_iter().filter(|(_, found)| *found);
        found.map(|(at, _)| at).collect()
    }
}

#[derive(Default)]
pub struct Counts {
    /// Accepted images by their number of layouts.
    accepted: [u64; MAX_LAYOUTS + 1],
    /// Images refused by a single fault of their layouts.
    faults: [u64; FAULTS.len()],
}

impl Counts {
    pub fn note(&mut self, bytes: &[u8], refusal: u8) {
        let Some(records) = Records::of(bytes) else {
            return;
        };
        if refusal == 0 {
            self.accepted[records.placed.len().min(MAX_LAYOUTS)] += 1;
            return;
        }
        let [fault] = records.faults(bytes)[..] else {
            return;
        };
        let placed = &records.placed;
        let other = |(start, end): &(usize, usize)| end - start != RECORD;
        let without = match fault {
            NINTH => Records::without(bytes, &placed[MAX_LAYOUTS..]),
            LATE => Records::without(bytes, &records.late),
            LENGTH => {
                let others: Vec<_> = placed.iter().copied().filter(other).collect();
                Records::without(bytes, &others)
            }
            _ => Records::without(bytes, placed),
        };
        let alone = refusal == FAULTS[fault].1 && oracle::load(&without).refusal == 0;
        self.faults[fault] += u64::from(alone);
    }

    pub fn add(&mut self, more: &Counts) {
        for (count, more) in self.accepted.iter_mut().zip(&more.accepted) {
            *count += more;
        }
        for (count, more) in self.faults.iter_mut().zip(&more.faults) {
            *count += more;
        }
    }

    /// Lines of counts, each with its name.
    pub fn lines(&self) -> Vec<(String, Vec<(&'static str, u64)>)> {
        let numbers = ["0", "1", "2", "3", "4", "5", "6", "7", "8"];
        let accepted = numbers.into_iter().zip(self.accepted);
        let faults = FAULTS.iter().zip(self.faults);
        vec![
            ("images accepted, by layouts:".into(), accepted.collect()),
            (
                "images with a fault of their layouts alone:".into(),
                faults.map(|((name, _), count)| (*name, count)).collect(),
            ),
        ]
    }
}

/// Holds a load to its layouts and to the image without them: what is sound
/// changes no answer and stands on the floor, and what is wrong in a name or
/// set is 12, after all else.
pub fn check(bytes: &[u8], outcome: &Outcome) -> Result<(), Trouble> {
    let (Some(records), Outcome::Answer(answer)) = (Records::of(bytes), outcome) else {
        return Ok(());
    };
    let faults = records.faults(bytes);
    if records.placed.is_empty() && faults.is_empty() {
        return Ok(());
    }
    let without = Records::without(bytes, &records.placed);
    let alone = ceromby::load(&without).refusal;
    let fits = match (faults.last(), answer.refusal) {
        (None, refusal) => refusal == alone,
        (Some(NINTH..), refusal) => refusal != 0,
        (_, refusal) => refusal == if alone == 0 { 12 } else { alone },
    };
    if !fits {
        let text = format!("load answers {} against its layouts", answer.refusal);
        return Err(Trouble::promise("layouts", text));
    }
    let mut layouts = records.layouts(bytes);
    layouts.resize(MAX_LAYOUTS, Layout::ZERO);
    match answer.refusal != 0 || layouts == answer.floor.layouts {
        true => Ok(()),
        false => {
            let text = "load gives other layouts".into();
            Err(Trouble::promise("layouts", text))
        }
    }
}

fn record(name: [u8; 8], set: u64) -> Vec<u8> {
    [&[16, 0, 5, 0], &name[..], &set.to_le_bytes()].concat()
}

/// Changes the layouts of an image, or gives it some.
pub fn damage(rng: &mut Rng, bytes: &mut Vec<u8>) {
    let Some(records) = Records::of(bytes) else {
        return;
    };
    let First {
        hoppers, on_floor, ..
    } = records.first;
    let placed = records.placed;
    let (kind, at) = (
        rng.below(11),
        rng.below(placed.len().max(1) as u64) as usize,
    );
    let start = placed.get(at).map_or(records.start, |record| record.0);
    let set = rng.draw() & on_floor | hoppers;
    let Some(last) = placed.last().filter(|_| kind > 1).map(|last| last.1) else {
        let added = match rng.below(4) {
            0 => nine(set),
            1 => record([0; 8], 0),
            _ => record(random::name(rng), set),
        };
        bytes.splice(start..start, added);
        return;
    };
    let end = placed[at].1;
    let whole = end - start == RECORD;
    let mut copy = bytes[start..end].to_vec();
    match kind {
        2 => drop(bytes.splice(records.start..last, nine(set))),
        3 if whole => bytes[start + 4..end].fill(0),
        4 => drop(bytes.splice(start..start, copy)),
        5 => {
            let length = rng.pick(&[0, 8, 15, 17, 24]);
            copy.resize(4 + length, 0);
            put(&mut copy, 0, length as u16);
            bytes.splice(start..end, copy);
        }
        6 => late(rng, bytes, placed[at]),
        7 if placed.len() > 1 => {
            let (one, other) = (placed[0], placed[1]);
            let turned = [&bytes[other.0..other.1], &bytes[one.0..one.1]].concat();
            bytes.splice(one.0..other.1, turned);
        }
        8 if whole => {
            let letter = &mut bytes[start + 4 + rng.below(8) as usize];
            *letter = rng.pick(&[0, b'A', b'a', b'[', 255]);
        }
        _ if whole => change_set(rng, &mut bytes[start + 12..end], hoppers, on_floor),
        _ => {}
    }
}

/// Nine records by rising name.
fn nine(set: u64) -> Vec<u8> {
    let names = (b'A'..=b'I').map(|letter| [letter, 0, 0, 0, 0, 0, 0, 0]);
    names.flat_map(|name| record(name, set)).collect()
}

/// Puts a record behind that of a tile.
fn late(rng: &mut Rng, bytes: &mut Vec<u8>, from: (usize, usize)) {
    let moved: Vec<u8> = bytes.drain(from.0..from.1).collect();
    let behind = borders(bytes);
    let behind: Vec<usize> = behind.into_iter().filter(|at| *at > from.0).collect();
    if !behind.is_empty() {
        let at = rng.pick(&behind);
        bytes.splice(at..at, moved);
    }
}

fn change_set(rng: &mut Rng, set: &mut [u8], hoppers: u64, on_floor: u64) {
    let lowest = hoppers & hoppers.wrapping_neg();
    let others = hoppers & !lowest;
    let beyond = !on_floor;
    let old = u64::from_le_bytes(set.try_into().unwrap_or([0; 8]));
    let new = match rng.below(5) {
        0 => old & !lowest,
        1 => old & !(others & others.wrapping_neg()),
        2 => old | beyond & beyond.wrapping_neg(),
        3 => old ^ 1 << rng.below(64),
        _ => old & !rng.draw(),
    };
    set.copy_from_slice(&new.to_le_bytes());
}
