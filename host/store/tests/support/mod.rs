//! What the tests share: a folder of their own, a stream of calls that depends on
//! a seed alone, and the same calls on a session in memory.
#![allow(dead_code)]

use std::collections::{BTreeMap, BTreeSet};
use std::fs;
use std::path::{Path, PathBuf};
use std::process;
use std::sync::atomic::{AtomicU32, Ordering};

use ceromby::{Booking, Canister, Entry, Floor, Name, Settings};
use ceromby_session::{Answer, Call, Denial, OnFloor, Session};
use ceromby_store::{Delivery, Record, Store, StoreError};

/// A folder that goes with its value.
pub struct Folder(PathBuf);

impl Folder {
    /// In memory where there is such a place: these tests don't ask the disk.
    pub fn new() -> Folder {
        let memory = Path::new("/dev/shm");
        match memory.is_dir() {
            true => Folder::within(memory),
            false => Folder::within(&std::env::temp_dir()),
        }
    }

    pub fn within(place: &Path) -> Folder {
        static NEXT: AtomicU32 = AtomicU32::new(0);
        let next = NEXT.fetch_add(1, Ordering::Relaxed);
        let path = place.join(format!("ceromby-store-{}-{next}", process::id()));
        fs::create_dir_all(&path).unwrap();
        Folder(path)
    }

    pub fn file(&self, name: &str) -> PathBuf {
        self.0.join(name)
    }
}

impl Drop for Folder {
    fn drop(&mut self) {
        let _ = fs::remove_dir_all(&self.0);
    }
}

/// Random numbers (SplitMix64).
#[derive(Clone)]
pub struct Random(u64);

impl Random {
    pub fn new(seed: u64) -> Random {
        Random(seed)
    }

    pub fn next(&mut self) -> u64 {
        self.0 = self.0.wrapping_add(0x9e37_79b9_7f4a_7c15);
        let mut mixed = self.0;
        mixed = (mixed ^ (mixed >> 30)).wrapping_mul(0xbf58_476d_1ce4_e5b9);
        mixed = (mixed ^ (mixed >> 27)).wrapping_mul(0x94d0_49bb_1331_11eb);
        mixed ^ (mixed >> 31)
    }

    pub fn below(&mut self, end: u64) -> u64 {
        self.next() % end
    }

    pub fn one_in(&mut self, many: u64) -> bool {
        self.below(many) == 0
    }
}

pub const PAIR: Settings = Settings {
    columns: 2,
    rows: 1,
    hoppers: 2,
    sources: 1,
    width: 100,
    length: 30,
    gap: 10,
    travel: 29,
};

const WIDE: Settings = Settings {
    columns: 4,
    rows: 3,
    hoppers: 1 << 11 | 1 << 3,
    sources: 0b0111,
    width: 1000,
    length: 250,
    gap: 50,
    travel: 249,
};

const LARGE: Settings = Settings {
    columns: 8,
    rows: 8,
    hoppers: 1 << 63 | 1 << 56 | 1 << 7 | 1 << 27,
    sources: 0x00ff_007f,
    ..WIDE
};

pub fn fresh(settings: Settings, give_up: bool) -> Call {
    Call::Fresh { settings, give_up }
}

pub fn put(floor: u32) -> Call {
    Call::Put {
        floor,
        give_up: true,
    }
}

fn take(floor: u32) -> Call {
    Call::Take {
        floor,
        give_up: true,
    }
}

/// The calls that a stream begins with: a barge of four floors, and one at hand.
fn first(index: u64) -> Option<Call> {
    let settings = [PAIR, WIDE, PAIR, WIDE, WIDE];
    match index {
        0..8 if index % 2 == 0 => Some(fresh(settings[index as usize / 2], false)),
        0..8 => Some(put(index as u32 / 2)),
        8 => Some(Call::Allowance(40)),
        9 => Some(fresh(settings[4], false)),
        _ => None,
    }
}

/// The call of that index, which depends on the seed and the index alone. Numbers
/// rise with the index, so that most bookings are accepted.
pub fn call(seed: u64, index: u64) -> Call {
    let mut random = Random::new(seed.wrapping_mul(0x1_0000_0001).wrapping_add(index << 20));
    if let Some(call) = first(index) {
        return call;
    }
    let floor = (seed + index / 97) as u32 % 4;
    match index % 97 {
        20 => return put(floor),
        21 => return some_floor(&mut random),
        60 => return take(floor),
        61 => return put(floor),
        62 => return fresh([PAIR, WIDE, LARGE][random.below(3) as usize], true),
        _ => {}
    }
    let number = (index as u32 + 1) * 64;
    match random.below(40) {
        0..13 => Call::Round,
        13..18 => Call::On {
            floor,
            call: OnFloor::Round,
        },
        18..21 => Call::BookAnywhere {
            tile: random.below(3) as u32,
            number,
        },
        21..23 => Call::Book {
            tile: random.below(4) as u32,
            canister: canister(&mut random, number),
        },
        23..25 => Call::On {
            floor,
            call: on_floor(&mut random, number),
        },
        25 => Call::BookList(bookings(&mut random, number)),
        26 => Call::Stop(random.below(12) as u32),
        27..29 => Call::Repair(random.below(12) as u32),
        29 => Call::Keep(name(&mut random)),
        30 => Call::Recall(name(&mut random)),
        31 => Call::Forget(name(&mut random)),
        32 if random.one_in(4) => Call::NewPlan,
        32..35 => Call::Entry(Entry::new(random.below(9) as u8, random.below(3) as u32)),
        35..37 => Call::Release(random.below(9) as u8),
        37 => Call::Allowance(random.below(9) as u32 * 8),
        38 if random.one_in(4) => fresh(PAIR, random.one_in(2)),
        _ => Call::Round,
    }
}

/// A key for every call of an even seed, for one in three of an odd one.
pub fn key(seed: u64, index: u64) -> Option<String> {
    let keyed = seed % 2 == 0 || index % 3 == 1;
    keyed.then(|| format!("{seed} {index}"))
}

fn some_floor(random: &mut Random) -> Call {
    match random.below(3) {
        0 => fresh(WIDE, true),
        1 => Call::Load {
            image: vec![],
            give_up: true,
        },
        _ => Call::Load {
            image: loaded_floor().to_image().unwrap(),
            give_up: true,
        },
    }
}

/// A floor with canisters and layouts.
fn loaded_floor() -> Floor {
    let mut floor = Floor::fresh(WIDE).unwrap();
    for (tile, number) in [(0, 1), (1, 2), (2, 3), (0, 4)] {
        floor.book_anywhere(tile, number).unwrap();
    }
    floor.keep("NETS").unwrap();
    floor.stop(6).unwrap();
    floor
}

fn canister(random: &mut Random, number: u32) -> Canister {
    Canister::new(number, random.below(800) as u16, random.below(800) as u16)
}

fn on_floor(random: &mut Random, number: u32) -> OnFloor {
    let tile = random.below(4) as u32;
    match random.below(5) {
        0 => OnFloor::Stop(tile),
        1 => OnFloor::Repair(tile),
        2 => OnFloor::Book {
            tile,
            canister: canister(random, number),
        },
        _ => OnFloor::BookAnywhere { tile, number },
    }
}

fn bookings(random: &mut Random, number: u32) -> Vec<Booking> {
    let length = if random.one_in(20) {
        65
    } else {
        random.below(12)
    };
    let one = |at| Booking::new(random.below(3) as u32, canister(random, number + at as u32));
    (0..length).map(one).collect()
}

fn name(random: &mut Random) -> Name {
    let names = ["A", "NETS", "NIGHT", "BB", "C", "D", "E", "F", "G", "lower"];
    Name::from(names[random.below(names.len() as u64) as usize])
}

/// What a call was answered.
pub type Answered = Result<Answer, Denial>;

/// The calls of a stream on a session in memory, undisturbed.
pub struct Mirror {
    pub seed: u64,
    pub session: Session,
    pub calls: u64,
}

impl Mirror {
    pub fn new(seed: u64) -> Mirror {
        Mirror {
            seed,
            session: Session::new(),
            calls: 0,
        }
    }

    pub fn step(&mut self) -> Answered {
        let call = call(self.seed, self.calls);
        self.calls += 1;
        self.session.call(&call)
    }

    /// Goes on to what the store has, and compares: the calls recorded since, each
    /// with its answer and its deliveries, and the session.
    pub fn follow(&mut self, store: &mut Store) -> Result<(), String> {
        let before = self.calls;
        let recorded = store.calls().map_err(text)?;
        if recorded < before {
            return Err(format!("{recorded} calls, and there were {before}"));
        }
        let records = store.history(before + 1..).map_err(text)?;
        if records.len() as u64 != recorded - before {
            return Err(format!(
                "{} calls in place of {}",
                records.len(),
                recorded - before
            ));
        }
        let mut expected = vec![];
        for record in records {
            let index = self.calls;
            let asked = call(self.seed, index);
            let result = self.step();
            expected.extend(delivered(&record));
            let same = record.sequence == index + 1
                && record.name == asked.name()
                && record.text == asked.to_string()
                && record.key == key(self.seed, index)
                && record.result == result;
            if !same {
                return Err(format!("{record:?} for {asked} with {result:?}"));
            }
        }
        let found = store.delivered(before + 1..).map_err(text)?;
        if found != expected {
            return Err(format!("delivered {found:?} in place of {expected:?}"));
        }
        match store.session().map_err(text)? == self.session {
            true => Ok(()),
            false => Err(format!("another session after {} calls", self.calls)),
        }
    }
}

pub fn text(error: StoreError) -> String {
    error.to_string()
}

/// What a recorded call delivered.
fn delivered(record: &Record) -> Vec<Delivery> {
    let (Some(run), Ok(Answer::Round(round))) = (record.run, &record.result) else {
        return vec![];
    };
    let mut all = vec![];
    for (hopper, numbers) in round.report.deliveries() {
        all.extend(numbers.iter().map(|number| Delivery {
            call: record.sequence,
            time: record.time,
            floor: record.floor,
            hopper,
            number: *number,
            run,
            round: round.number,
        }));
    }
    all
}

/// Makes the next call of a stream on a store.
pub fn send(store: &mut Store, seed: u64, index: u64) -> Result<Answered, StoreError> {
    let call = call(seed, index);
    let key = key(seed, index);
    let outcome = store.call(&call, key.as_deref(), &call.to_string())?;
    assert_eq!(outcome.sequence, index + 1);
    Ok(outcome.result)
}

/// From the history alone: in each run, the first floor's numbers and those of the
/// accepted bookings are those delivered and those on its floor, each once. Of a
/// floor that was given up only what was delivered is known.
pub fn account(store: &mut Store) -> Result<(), String> {
    let mut booked: BTreeMap<u64, Vec<u32>> = BTreeMap::new();
    for record in store.history(..).map_err(text)? {
        let (Some(run), Ok(answer)) = (record.run, &record.result) else {
            continue;
        };
        let numbers = booked.entry(run).or_default();
        match answer {
            Answer::Begun { .. } if record.name == "load" => {
                numbers.extend(first_numbers(&record.arguments))
            }
            Answer::Booked { canister, .. } | Answer::Released { canister, .. } => {
                numbers.push(canister.number)
            }
            Answer::Listed(list) => {
                let taken = list.iter().filter(|entry| entry.answer == 0);
                numbers.extend(taken.map(|entry| entry.canister.number));
            }
            _ => {}
        }
    }
    let session = store.session().map_err(text)?;
    let mut found: BTreeMap<u64, Vec<u32>> = BTreeMap::new();
    for delivery in store.delivered(..).map_err(text)? {
        found.entry(delivery.run).or_default().push(delivery.number);
    }
    let barge = (0..4).filter_map(|floor| session.aboard(floor));
    let mut present = BTreeSet::new();
    for operation in barge.chain(session.hand()) {
        present.insert(operation.run);
        let numbers = operation
            .floor
            .canisters()
            .map(|(_, canister)| canister.number);
        found.entry(operation.run).or_default().extend(numbers);
    }
    for (run, numbers) in &mut booked {
        numbers.sort();
        let mut there = found.remove(run).unwrap_or_default();
        there.sort();
        let twice = there.windows(2).any(|pair| pair[0] == pair[1]);
        let known = there
            .iter()
            .all(|number| numbers.binary_search(number).is_ok());
        if twice || !known || present.contains(run) && there != *numbers {
            return Err(format!("run {run} booked {numbers:?} and has {there:?}"));
        }
    }
    match found.iter().find(|(_, numbers)| !numbers.is_empty()) {
        None => Ok(()),
        Some((run, numbers)) => Err(format!("run {run} never booked {numbers:?}")),
    }
}

/// The numbers on a floor that was loaded.
fn first_numbers(arguments: &str) -> Vec<u32> {
    let digits = arguments.strip_prefix("{\"image\":\"").unwrap();
    let digits = digits.split('"').next().unwrap();
    let byte = |at| u8::from_str_radix(&digits[at..at + 2], 16).unwrap();
    let image: Vec<u8> = (0..digits.len()).step_by(2).map(byte).collect();
    let floor = Floor::load(&image).unwrap();
    let numbers = floor.canisters().map(|(_, canister)| canister.number);
    numbers.collect()
}

/// The file of a store and its journal's.
pub fn journal(path: &Path) -> PathBuf {
    let mut name = path.as_os_str().to_owned();
    name.push("-journal");
    name.into()
}
