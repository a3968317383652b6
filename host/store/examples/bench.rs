//! What a store costs: calls a second with and without sync, beside the same
//! statements without the library; and memory over many calls.
//!
//!     cargo run --release -p ceromby-store --example bench [CALLS [FOLDER]]

use std::error::Error;
use std::fs;
use std::path::{Path, PathBuf};
use std::time::{Duration, Instant, SystemTime};

use ceromby::{Floor, Settings};
use ceromby_session::{Call, Session};
use ceromby_store::sql::Statements;
use ceromby_store::sqlite::{Connection, Missing, Value};
use ceromby_store::{Options, Store};

type Done<T = ()> = Result<T, Box<dyn Error>>;

/// A large floor of the barge.
const SETTINGS: Settings = Settings {
    columns: 4,
    rows: 4,
    hoppers: 1 << 10,
    sources: 1 << 4 | 1 << 7 | 1 << 12,
    width: 1000,
    length: 250,
    gap: 50,
    travel: 200,
};

/// A booking and nine rounds, over and over.
fn call(index: u64) -> Call {
    match index {
        0 => Call::Fresh {
            settings: SETTINGS,
            give_up: true,
        },
        _ if index % 10 == 1 => Call::BookAnywhere {
            tile: [4, 7, 12][index as usize / 10 % 3],
            number: index as u32,
        },
        _ => Call::Round,
    }
}

fn calls_on(store: &mut Store, calls: std::ops::Range<u64>) -> Done {
    for index in calls {
        let call = call(index);
        store.call(&call, None, &call.to_string())?.result.ok();
    }
    Ok(())
}

/// The statements of a call with fixed values, after one real call.
fn statements(path: &Path, calls: u64, synced: bool) -> Done {
    let db = Connection::open(path, Missing::Refused)?;
    db.execute(match synced {
        true => "PRAGMA synchronous = EXTRA",
        false => "PRAGMA synchronous = OFF",
    })?;
    let mut sql = Statements::prepare(&db)?;
    let image = Floor::fresh(SETTINGS)?.to_image()?;
    let bytes = [0; 200];
    let text = Value::Text("{\"round\":1000,\"deliveries\":[{\"hopper\":10,\"numbers\":[]}]}");
    for index in 0..calls as i64 {
        let number = Value::Integer(index + 2);
        db.execute("BEGIN IMMEDIATE")?;
        sql.floors.run(&[])?;
        sql.session.run(&[])?;
        let (none, bytes) = (Value::Null, Value::Blob(&bytes));
        let name = Value::Text("round");
        let call = [
            number, number, number, none, name, name, name, none, number, text, bytes, number,
        ];
        sql.add_call.run(&call)?;
        let image = Value::Blob(&image);
        let place = Value::Integer(4);
        sql.write_floor
            .run(&[place, number, number, image, bytes, bytes, number])?;
        let one = Value::Integer(1);
        let session = [
            one, bytes, number, number, number, number, number, number, number, number,
        ];
        sql.write_session.run(&session)?;
        db.execute("COMMIT")?;
    }
    Ok(())
}

fn rate(calls: u64, act: impl FnOnce() -> Done) -> Done<f64> {
    let begun = Instant::now();
    act()?;
    Ok(calls as f64 / begun.elapsed().as_secs_f64())
}

/// A new file.
fn new(folder: &Path, name: &str) -> PathBuf {
    let path = folder.join(name);
    let _ = fs::remove_file(&path);
    path
}

fn speeds(folder: &Path) -> Done {
    for (words, synced, calls) in [("with sync", true, 400), ("without sync", false, 20_000)] {
        let options = match synced {
            true => Options::new(),
            false => Options::new().unsynced(),
        };
        let mut store = options.create(new(folder, "calls"))?;
        calls_on(&mut store, 0..1)?;
        let stored = rate(calls, || calls_on(&mut store, 1..calls + 1))?;
        let path = new(folder, "statements");
        calls_on(&mut options.create(&path)?, 0..1)?;
        let alone = rate(calls, || statements(&path, calls, synced))?;
        println!("{words}: {stored:.0} calls a second; the same statements without the library {alone:.0}");
    }
    let mut session = Session::new();
    let calls = 200_000;
    let memory = rate(calls, || {
        for index in 0..calls {
            session.call(&call(index)).ok();
        }
        Ok(())
    })?;
    println!("in memory, without a store: {memory:.0} calls a second");
    Ok(())
}

/// Resident memory of this program in KiB.
fn resident() -> Done<u64> {
    let status = fs::read_to_string("/proc/self/status")?;
    let line = status.lines().find(|line| line.starts_with("VmRSS:"));
    let number = line.and_then(|line| line.split_whitespace().nth(1));
    Ok(number.ok_or("no VmRSS")?.parse()?)
}

fn memory(folder: &Path, calls: u64) -> Done {
    let path = new(folder, "many");
    let mut store = Options::new().unsynced().create(&path)?;
    let begun = Instant::now();
    let (mut done, mut seen) = (0, vec![]);
    for part in 1..=10 {
        let end = calls * part / 10;
        calls_on(&mut store, done..end)?;
        done = end;
        seen.push(resident()?);
    }
    let seconds = begun.elapsed().as_secs_f64();
    println!("{calls} calls in {seconds:.0} s; KiB resident after each tenth: {seen:?}");
    let megabytes = fs::metadata(&path)?.len() / 1_000_000;
    drop(store);
    let begun = Instant::now();
    let mut store = Options::new().unsynced().open(&path)?;
    let opened = begun.elapsed().as_secs_f64();
    println!("its file has {megabytes} MB, and opens in {opened:.1} s");
    let begun = Instant::now();
    let gone = store.trim(SystemTime::now() + Duration::from_secs(60))?;
    let trimmed = begun.elapsed().as_secs_f64();
    println!(
        "trimmed of {} calls in {trimmed:.1} s; {} KiB resident",
        gone.calls,
        resident()?
    );
    Ok(())
}

fn main() -> Done {
    let mut arguments = std::env::args().skip(1);
    let calls = arguments
        .next()
        .map_or(Ok(1_000_000), |word| word.parse())?;
    let folder = PathBuf::from(arguments.next().unwrap_or_else(|| ".".to_owned()));
    let folder = folder.join(format!("ceromby-bench-{}", std::process::id()));
    fs::create_dir_all(&folder)?;
    let measured = speeds(&folder).and_then(|()| memory(&folder, calls));
    fs::remove_dir_all(&folder)?;
    measured
}
