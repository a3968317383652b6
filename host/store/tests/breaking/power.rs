//! Power cuts: whatever a cut leaves of what wasn't synced, the store opens, has
//! every call that was answered and no other but the one under way.

use std::path::Path;

use ceromby_store::{Options, Store, StoreError};

use crate::disk::disk;
use crate::support::{account, send, text, Mirror, Random};

const PATH: &str = "/barge.store";

/// How the cuts fell.
#[derive(Default, Debug)]
pub struct Tally {
    pub cuts: u64,
    pub calls: u64,
    /// Cuts that left the call under way.
    pub kept: u64,
    pub broken: u64,
}

/// A store through several cuts.
struct Life {
    seed: u64,
    options: Options,
    /// Whether the making of the store was answered.
    created: bool,
    /// Calls that were answered.
    answered: u64,
}

impl Life {
    fn open(&self) -> Result<Store, StoreError> {
        let path = Path::new(PATH);
        match self.created {
            true => self.options.open(path),
            false => match self.options.create(path) {
                Err(StoreError::Exists(_)) => self.options.open(path),
                other => other,
            },
        }
    }

    /// Makes calls until the power is cut. An error before that is a fault.
    fn work(&mut self, tally: &mut Tally) -> Result<(), String> {
        let mut store = match self.open() {
            Ok(store) => store,
            Err(_) if disk(|disk| disk.is_cut()) => return Ok(()),
            Err(error) => return Err(error.to_string()),
        };
        self.created = true;
        match store.calls() {
            Ok(calls) if calls == self.answered => {}
            Ok(calls) if calls == self.answered + 1 => {
                self.answered = calls;
                tally.kept += 1;
            }
            Err(_) if disk(|disk| disk.is_cut()) => return Ok(()),
            other => return Err(format!("{other:?} after {} answers", self.answered)),
        }
        loop {
            match send(&mut store, self.seed, self.answered) {
                Ok(_) => {
                    self.answered += 1;
                    tally.calls += 1;
                }
                Err(_) if disk(|disk| disk.is_cut()) => return Ok(()),
                Err(error) => return Err(error.to_string()),
            }
        }
    }

    /// With the power on.
    fn check(&mut self) -> Result<(), String> {
        let mut store = self.open().map_err(text)?;
        let mut mirror = Mirror::new(self.seed);
        mirror.follow(&mut store)?;
        let calls = mirror.calls;
        if calls != self.answered && calls != self.answered + 1 {
            return Err(format!("{calls} calls after {} answers", self.answered));
        }
        account(&mut store)
    }
}

fn life(seed: u64, options: Options, tally: &mut Tally) -> Result<(), String> {
    let mut random = Random::new(seed);
    let mut life = Life {
        seed,
        options,
        created: false,
        answered: 0,
    };
    disk(|disk| disk.clear());
    for _ in 0..1 + random.below(6) {
        let most = if random.one_in(2) { 60 } else { 600 };
        let operations = random.below(most);
        disk(|disk| disk.cut_after(operations));
        life.work(tally)?;
        tally.cuts += 1;
        disk(|disk| disk.restart(&mut random));
    }
    life.check()
}

/// At least so many cuts.
pub fn run(cuts: u64) -> Result<(), String> {
    let mut tally = Tally::default();
    for seed in 0.. {
        life(seed, Options::new(), &mut tally).map_err(|what| format!("seed {seed}: {what}"))?;
        if tally.cuts >= cuts {
            break;
        }
    }
    let Tally {
        cuts, calls, kept, ..
    } = tally;
    println!("power: {cuts} cuts, {calls} calls answered and none lost; {kept} cuts left the call under way");
    without_syncs(cuts)
}

/// Without syncs the same must break.
fn without_syncs(cuts: u64) -> Result<(), String> {
    let mut tally = Tally::default();
    let mut lives = 0;
    for seed in 0.. {
        let lived = life(seed, Options::new().unsynced(), &mut tally);
        tally.broken += u64::from(lived.is_err());
        lives += 1;
        if tally.cuts >= cuts / 10 {
            break;
        }
    }
    let Tally { cuts, broken, .. } = tally;
    println!("power: with synchronous=OFF {broken} of {lives} stores broke in {cuts} cuts");
    match broken {
        0 => Err("with synchronous=OFF no power cut is seen".to_owned()),
        _ => Ok(()),
    }
}
