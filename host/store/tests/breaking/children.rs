//! What this program does when it is started again by itself: calls on a store,
//! each answer printed as soon as it is given.

use std::io::Write;
use std::path::Path;
use std::process::{exit, Command};
use std::thread;
use std::time::Duration;

use ceromby_session::json;
use ceromby_store::{Options, Store, StoreError};

use crate::support::{call, key, send, Random};

/// This program with other arguments.
pub fn command(arguments: &[&str]) -> Command {
    let mut command = Command::new(std::env::current_exe().expect("the name of this program"));
    command.args(arguments);
    command
}

/// The part that `arguments` name, if it is one of these.
pub fn play(arguments: &[String]) -> Result<(), String> {
    let words: Vec<&str> = arguments.iter().map(String::as_str).collect();
    let number = |word: &str| {
        word.parse::<u64>()
            .map_err(|_| format!("{word} is no number"))
    };
    match words[..] {
        ["child", "stream", path, seed, answered] => {
            stream(Path::new(path), number(seed)?, number(answered)?)
        }
        ["child", "limited", path, seed, calls] => {
            limited(Path::new(path), number(seed)?, number(calls)?)
        }
        ["child", "several", path, who, calls, times] => {
            several(Path::new(path), who, number(calls)?, number(times)?)
        }
        _ => Err(format!("unknown part {words:?}")),
    }
}

/// Waits long: many programs may want the store.
fn options() -> Options {
    Options::new().lock_timeout(Duration::from_secs(60))
}

fn open(path: &Path) -> Result<Store, StoreError> {
    match options().open(path) {
        Err(StoreError::NotOpened(..) | StoreError::NotAStore(_)) => options().create(path),
        other => other,
    }
}

fn say(line: std::fmt::Arguments) {
    let mut out = std::io::stdout().lock();
    if writeln!(out, "{line}").and_then(|()| out.flush()).is_err() {
        exit(1);
    }
}

/// Calls without an end, from the first that wasn't answered. If that one is
/// recorded, it is asked again with its key, or taken from the history.
fn stream(path: &Path, seed: u64, answered: u64) -> Result<(), String> {
    let mut store = open(path).map_err(|error| error.to_string())?;
    say(format_args!("open"));
    let recorded = store.calls().map_err(|error| error.to_string())?;
    let mut index = answered;
    if key(seed, answered).is_none() {
        index = recorded;
        say(format_args!("{index}"));
    }
    loop {
        send(&mut store, seed, index)
            .map(drop)
            .map_err(|error| error.to_string())?;
        index += 1;
        say(format_args!("{index}"));
    }
}

/// Calls until one gives an error, and that one three times more.
fn limited(path: &Path, seed: u64, calls: u64) -> Result<(), String> {
    let mut store = open(path).map_err(|error| error.to_string())?;
    let first = store.calls().map_err(|error| error.to_string())?;
    for index in first..calls {
        if let Err(error) = send(&mut store, seed, index) {
            say(format_args!("{index} {error}"));
            for _ in 0..3 {
                match send(&mut store, seed, index) {
                    Err(StoreError::Database(_)) => {}
                    other => return Err(format!("then {other:?}")),
                }
            }
            return match error {
                StoreError::Database(_) => Ok(()),
                other => Err(other.to_string()),
            };
        }
    }
    Err("no call gave an error".to_owned())
}

/// Calls beside another program that does the same. Keyed ones have the same keys
/// there, and are sent so many times; `times` 0 sends calls without a key.
fn several(path: &Path, who: &str, calls: u64, times: u64) -> Result<(), String> {
    let mut store = options().open(path).map_err(|error| error.to_string())?;
    let mut random = Random::new(who.len() as u64);
    for index in 0..calls {
        // the other one comes between
        thread::sleep(Duration::from_micros(random.below(300)));
        let call = call(7, index);
        let (key, text) = match times {
            0 => (None, format!("{who} {index}")),
            _ => (Some(format!("key {index}")), format!("{index}")),
        };
        for _ in 0..times.max(1) {
            let outcome = store.call(&call, key.as_deref(), &text);
            let outcome = outcome.map_err(|error| error.to_string())?;
            let answer = match &outcome.result {
                Ok(answer) => json::answer(answer),
                Err(denial) => json::denial(denial),
            };
            say(format_args!("{index} {} {answer}", outcome.sequence));
        }
    }
    Ok(())
}
