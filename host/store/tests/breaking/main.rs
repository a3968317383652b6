//! Attempts to break a store.
//!
//!     breaking [--full] [NAME...]
//!
//! Without a name all of them, at a small size or at full size. `kill-on-disk` has
//! its folder within the current one.

mod children;
mod disk;
mod faults;
mod flips;
mod kill;
mod limit;
mod power;
mod processes;
#[path = "../support/mod.rs"]
mod support;

use std::path::Path;
use std::process::ExitCode;
use std::time::{Duration, Instant};

use support::Folder;

const NAMES: [&str; 7] = [
    "kill",
    "kill-on-disk",
    "processes",
    "limit",
    "flips",
    "power",
    "faults",
];

fn run(name: &str, full: bool) -> Result<(), String> {
    let size = |small, large| if full { large } else { small };
    let on_disk = || Folder::within(Path::new("."));
    match name {
        "kill" => kill::run(size(40, 4_500), Duration::from_millis(20), Folder::new),
        "kill-on-disk" => kill::run(size(10, 500), Duration::from_millis(150), on_disk),
        "processes" => processes::run(size(300, 10_000), &Folder::new()),
        "limit" => limit::run(size(4, 40)),
        "flips" => flips::run(size(1_500, 20_000), full),
        // from here on files are on the disk in memory
        "power" => power::run(size(2_000, 200_000)),
        "faults" => faults::run(full.then_some(12)),
        other => Err(format!("there is no {other}")),
    }
}

fn main() -> ExitCode {
    let mut arguments: Vec<String> = std::env::args().skip(1).collect();
    if arguments.first().is_some_and(|first| first == "child") {
        return ended(children::play(&arguments));
    }
    let full = arguments.first().is_some_and(|first| first == "--full");
    if full {
        arguments.remove(0);
    }
    let named = |name: &&str| arguments.is_empty() || arguments.iter().any(|word| word == name);
    for name in NAMES.iter().filter(|name| named(name)) {
        if *name == "power" || *name == "faults" {
            disk::register();
        }
        let begun = Instant::now();
        if let Err(what) = run(name, full) {
            return ended(Err(format!("{name}: {what}")));
        }
        println!("{name}: {:.1} s", begun.elapsed().as_secs_f64());
    }
    ExitCode::SUCCESS
}

fn ended(result: Result<(), String>) -> ExitCode {
    match result {
        Ok(()) => ExitCode::SUCCESS,
        Err(what) => {
            eprintln!("{what}");
            ExitCode::FAILURE
        }
    }
}
