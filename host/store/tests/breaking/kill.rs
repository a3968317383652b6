//! kill -9 at random moments of a stream of calls.

use std::io::{BufRead, BufReader, Read};
use std::process::Stdio;
use std::thread;
use std::time::Duration;

use ceromby_store::Options;

use crate::children::command;
use crate::support::{account, text, Folder, Mirror, Random};

/// Kills of one store, before a new one is made.
const KILLS: u64 = 50;

/// What one store went through.
struct Stream {
    folder: Folder,
    mirror: Mirror,
    answered: u64,
    made: bool,
    kept: u64,
}

impl Stream {
    /// Starts the calls and kills them: after a while, or while a store is opened.
    fn kill(&mut self, random: &mut Random, longest: Duration) -> Result<(), String> {
        let path = self.folder.file("store");
        let path = path.to_str().ok_or("a path that is text")?;
        let (seed, answered) = (self.mirror.seed.to_string(), self.answered.to_string());
        let mut child = command(&["child", "stream", path, &seed, &answered])
            .stdout(Stdio::piped())
            .stderr(Stdio::piped())
            .spawn()
            .map_err(|error| error.to_string())?;
        let out = child.stdout.take().ok_or("its output")?;
        let mut reader = BufReader::new(out);
        let mut lines = String::new();
        if !random.one_in(8) {
            let opened = reader.read_line(&mut lines);
            opened.map_err(|error| error.to_string())?;
        }
        thread::sleep(Duration::from_micros(
            random.below(longest.as_micros() as u64),
        ));
        child.kill().map_err(|error| error.to_string())?;
        let read = reader.read_to_string(&mut lines);
        read.map_err(|error| error.to_string())?;
        let ended = child
            .wait_with_output()
            .map_err(|error| error.to_string())?;
        if !ended.stderr.is_empty() {
            return Err(String::from_utf8_lossy(&ended.stderr).into_owned());
        }
        // a line that the kill cut short was no answer
        let whole = lines.rsplit_once('\n').map_or("", |(whole, _)| whole);
        self.made |= whole.starts_with("open");
        if let Some(last) = whole
            .lines()
            .filter_map(|line| line.parse().ok())
            .next_back()
        {
            self.answered = last;
        }
        Ok(())
    }

    /// The store has every answered call, and at most the one under way beside them.
    fn check(&mut self) -> Result<(), String> {
        let path = self.folder.file("store");
        if !self.made {
            return Ok(());
        }
        let mut store = Options::new().open(&path).map_err(text)?;
        self.mirror.follow(&mut store)?;
        let calls = self.mirror.calls;
        match calls.checked_sub(self.answered) {
            Some(0) => {}
            Some(1) => self.kept += 1,
            _ => return Err(format!("{calls} calls after {} answers", self.answered)),
        }
        Ok(())
    }

    fn account(&self) -> Result<(), String> {
        match self.made {
            true => account(
                &mut Options::new()
                    .open(self.folder.file("store"))
                    .map_err(text)?,
            ),
            false => Ok(()),
        }
    }
}

/// Each within `longest` of the start or of the opened store.
pub fn run(kills: u64, longest: Duration, folder: impl Fn() -> Folder) -> Result<(), String> {
    let mut random = Random::new(11);
    let (mut calls, mut kept, mut done) = (0, 0, 0);
    for seed in 0.. {
        let mut stream = Stream {
            folder: folder(),
            mirror: Mirror::new(seed),
            answered: 0,
            made: false,
            kept: 0,
        };
        for _ in 0..KILLS.min(kills - done) {
            stream.kill(&mut random, longest)?;
            stream
                .check()
                .map_err(|what| format!("seed {seed}: {what}"))?;
            done += 1;
        }
        stream.account()?;
        calls += stream.mirror.calls;
        kept += stream.kept;
        if done >= kills {
            break;
        }
    }
    println!("kill: {done} kills, {calls} calls, none lost and none twice; {kept} kills left the call under way");
    Ok(())
}
