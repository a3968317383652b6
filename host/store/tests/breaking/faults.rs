//! Every write, sync, open and deletion made to fail in turn: a call
//! gives an error or its answer; what gave an error wasn't made, but where the
//! error says that this isn't known; nothing is lost, nothing is twice.

use std::collections::BTreeMap;
use std::path::Path;
use std::time::SystemTime;

use ceromby_store::{Options, Store, StoreError};

use crate::disk::{disk, Fault, Operation};
use crate::support::{account, key, send, text, Mirror, Random};

const PATH: &str = "/barge.store";
const BEFORE: u64 = 11;
const CALLS: u64 = 21;

/// One fault among the calls of one store.
struct Case {
    seed: u64,
    store: Option<Store>,
    unknown: u64,
    /// Whether the power is cut as soon as the call that met the fault is answered.
    cut: bool,
    random: Random,
}

impl Case {
    /// The store, opened again if need be.
    fn store(&mut self) -> Result<&mut Store, StoreError> {
        if self.store.is_none() {
            self.store = Some(Options::new().open(Path::new(PATH))?);
        }
        self.store.as_mut().ok_or(StoreError::BadKey)
    }

    /// Tries again until the fault is over; it comes once.
    fn insist<T>(
        &mut self,
        act: impl Fn(&mut Store) -> Result<T, StoreError>,
    ) -> Result<T, StoreError> {
        match self.store().and_then(&act) {
            Err(_) => {
                disk(|disk| disk.heal());
                self.store().and_then(&act)
            }
            done => done,
        }
    }

    /// Makes a call, whatever fails; it is made once.
    fn make(&mut self, index: u64) -> Result<(), String> {
        let seed = self.seed;
        let first = match self.store() {
            Ok(store) => send(store, seed, index),
            Err(error) => Err(error),
        };
        let Err(error) = first else {
            return Ok(());
        };
        // with the device as it is, or well again; with this handle, or a new one
        disk(|disk| disk.heal());
        if index % 2 == 0 {
            self.store = None;
        }
        let calls = self.insist(|store| store.calls()).map_err(text)?;
        let unknown =
            matches!(error, StoreError::CommitUnknown(Some(call), _) if call == index + 1);
        self.unknown += u64::from(unknown);
        match (calls == index, unknown) {
            (true, _) => {}
            (false, true) if calls == index + 1 => {}
            _ => {
                return Err(format!(
                    "call {index} gave {error:?}, and {calls} are recorded"
                ))
            }
        }
        if calls == index || key(seed, index).is_some() {
            let again = self.insist(|store| send(store, seed, index));
            again.map(drop).map_err(text)?;
            if self.cut {
                self.cut_now();
            }
        }
        Ok(())
    }

    fn cut_now(&mut self) {
        self.store = None;
        let random = &mut self.random;
        disk(|disk| disk.restart(random));
    }

    fn run(&mut self) -> Result<(), String> {
        for index in BEFORE..CALLS {
            self.make(index)?;
            match index {
                14 => self.store = None,
                17 => {
                    // takes nothing away, and writes
                    let _ = self.insist(|store| store.trim(SystemTime::UNIX_EPOCH));
                }
                _ => {}
            }
        }
        disk(|disk| disk.heal());
        for _ in 0..2 {
            let mut mirror = Mirror::new(self.seed);
            let store = self.store().map_err(text)?;
            mirror.follow(store)?;
            account(store)?;
            if mirror.calls != CALLS {
                return Err(format!("{} calls in place of {CALLS}", mirror.calls));
            }
            self.cut_now();
        }
        Ok(())
    }
}

/// The operation that failed, none where the calls end before it, and how many
/// errors said that the outcome isn't known.
fn case(seed: u64, at: u64, fault: Fault, cut: bool) -> Result<(Option<Operation>, u64), String> {
    disk(|disk| disk.clear());
    let mut store = Options::new().create(Path::new(PATH)).map_err(text)?;
    for index in 0..BEFORE {
        send(&mut store, seed, index).map(drop).map_err(text)?;
    }
    disk(|disk| disk.fail_after(at, fault));
    let mut case = Case {
        seed,
        store: Some(store),
        unknown: 0,
        cut,
        random: Random::new(at),
    };
    case.run()?;
    Ok((disk(|disk| disk.met), case.unknown))
}

const FAULTS: [Fault; 5] = [
    Fault::Once,
    Fault::Half,
    Fault::Full,
    Fault::Lost,
    Fault::Always,
];

/// What failed so far.
#[derive(Default)]
struct Tally {
    failed: BTreeMap<Operation, u64>,
    unknown: u64,
}

impl Tally {
    /// Whether there was such an operation.
    fn add(&mut self, seed: u64, at: u64, fault: Fault, cut: bool) -> Result<bool, String> {
        let (met, unknown) = case(seed, at, fault, cut)
            .map_err(|what| format!("seed {seed}, {fault:?} at {at}, {cut}: {what}"))?;
        self.unknown += unknown;
        if let Some(operation) = met {
            *self.failed.entry(operation).or_default() += 1;
        }
        Ok(met.is_some())
    }
}

/// Each operation fails once, by one fault after another; or, for so many streams
/// of calls, by every fault, with and without a power cut after it.
pub fn run(streams: Option<u64>) -> Result<(), String> {
    let mut tally = Tally::default();
    match streams {
        None => {
            let mut at = 0;
            while tally.add(at % 2, at, FAULTS[at as usize % 5], at % 3 != 0)? {
                at += 1;
            }
        }
        Some(seeds) => {
            for seed in 0..seeds {
                for fault in FAULTS {
                    for cut in [false, true] {
                        let mut at = 0;
                        while tally.add(seed, at, fault, cut)? {
                            at += 1;
                        }
                    }
                }
            }
        }
    }
    let Tally { failed, unknown } = tally;
    println!(
        "faults: {failed:?} failed in turn, {unknown} commits were unknown; none lost, none twice"
    );
    let all = [
        Operation::Open,
        Operation::Write,
        Operation::Sync,
        Operation::Delete,
    ];
    match all.iter().all(|operation| failed.contains_key(operation)) && unknown > 0 {
        true => {
            doubts()?;
            creating()
        }
        false => Err("an operation never failed".to_owned()),
    }
}

/// How a call is seen whose commit nobody synced.
#[derive(Clone, Copy, Debug)]
enum Seen {
    /// By its own program.
    Here,
    /// By one that opens the store.
    Opened,
    /// By one that has it open and asks again with the key.
    Repeated,
}

/// What was seen after a failed sync is there after a power cut, whatever else
/// the cut leaves.
fn doubts() -> Result<(), String> {
    let mut unknown = 0;
    for seen in [Seen::Here, Seen::Opened, Seen::Repeated] {
        for chance in 0..6 {
            for at in 0.. {
                let case = doubt(seen, at, chance);
                match case.map_err(|what| format!("{seen:?} at {at}, {chance}: {what}"))? {
                    Some(was_unknown) => unknown += u64::from(was_unknown),
                    None => break,
                }
            }
        }
    }
    println!("faults: {unknown} calls whose commit was unknown, seen and then kept");
    match unknown {
        0 => Err("no commit was unknown".to_owned()),
        _ => Ok(()),
    }
}

/// Whether the outcome was unknown; none where the call ends before the fault.
fn doubt(seen: Seen, at: u64, chance: u64) -> Result<Option<bool>, String> {
    let path = Path::new(PATH);
    disk(|disk| disk.clear());
    let mut store = Options::new().create(path).map_err(text)?;
    for index in 0..BEFORE {
        send(&mut store, 0, index).map(drop).map_err(text)?;
    }
    let mut other = Options::new().open(path).map_err(text)?;
    disk(|disk| disk.fail_after(at, Fault::Lost));
    let first = send(&mut store, 0, BEFORE);
    if disk(|disk| disk.met).is_none() {
        return Ok(None);
    }
    disk(|disk| disk.heal());
    let calls = match seen {
        Seen::Here => store.calls().map_err(text)?,
        Seen::Opened => {
            let opened = Options::new().open(path);
            opened.and_then(|mut store| store.calls()).map_err(text)?
        }
        Seen::Repeated => {
            send(&mut other, 0, BEFORE).map(drop).map_err(text)?;
            BEFORE + 1
        }
    };
    drop((store, other));
    disk(|disk| disk.restart(&mut Random::new(chance)));
    let mut store = Options::new().open(path).map_err(text)?;
    let left = store.calls().map_err(text)?;
    if left != calls {
        return Err(format!("{calls} calls were seen, and {left} are left"));
    }
    Ok(Some(matches!(first, Err(StoreError::CommitUnknown(..)))))
}

/// The same while a store is made: an error, and then it can be made.
fn creating() -> Result<(), String> {
    let path = Path::new(PATH);
    let mut failed = 0;
    for fault in [Fault::Once, Fault::Half, Fault::Full, Fault::Always] {
        for at in 0.. {
            disk(|disk| {
                disk.clear();
                disk.fail_after(at, fault);
            });
            let first = Options::new().create(path);
            let met = disk(|disk| disk.met);
            disk(|disk| disk.heal());
            if first.is_err() {
                failed += 1;
                drop(first);
                match Options::new().create(path) {
                    Ok(_) => {}
                    // made, and not opened; or its outcome was unknown
                    Err(StoreError::Exists(_)) => {}
                    Err(error) => return Err(format!("{fault:?} at {at}: {error}")),
                }
            }
            let mut store = Options::new().open(path).map_err(text)?;
            send(&mut store, 0, 0).map(drop).map_err(text)?;
            if met.is_none() {
                break;
            }
        }
    }
    println!("faults: {failed} failed creations, and the store was made after each");
    Ok(())
}
