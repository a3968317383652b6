//! Running the program.

use std::fs;
use std::io::Write;
use std::path::{Path, PathBuf};
use std::process::{Child, ChildStdin, Command, Output, Stdio};
use std::sync::atomic::{AtomicU32, Ordering};
use std::thread;

/// Two tiles in a row: tile 0 is filled, tile 1 is the hopper.
pub const PAIR: &str = "fresh 2 1 1 all 100 30 10 20\n";

/// What it answers.
pub const PAIR_MADE: &str = "fresh: 2 x 1 tiles, hopper 1\n";

/// The program, to be run in a folder.
pub fn program(folder: &Path) -> Command {
    let mut command = Command::new(env!("CARGO_BIN_EXE_ceromby"));
    command.current_dir(folder).env_remove("NO_COLOR");
    command
}

/// What a run gave.
#[derive(Debug)]
pub struct Ran {
    pub status: Option<i32>,
    pub out: String,
    pub err: String,
}

impl From<Output> for Ran {
    fn from(output: Output) -> Ran {
        Ran {
            status: output.status.code(),
            out: String::from_utf8(output.stdout).unwrap(),
            err: String::from_utf8(output.stderr).unwrap(),
        }
    }
}

/// Starts a command, its input at hand.
pub fn started(mut command: Command) -> (Child, ChildStdin) {
    command.stdin(Stdio::piped());
    command.stdout(Stdio::piped()).stderr(Stdio::piped());
    let mut child = command.spawn().unwrap();
    let stdin = child.stdin.take().unwrap();
    (child, stdin)
}

/// Runs a command on an input.
pub fn fed(command: Command, input: impl Into<Vec<u8>>) -> Ran {
    let (child, mut stdin) = started(command);
    let input = input.into();
    // it may end before it has read all
    let writer = thread::spawn(move || drop(stdin.write_all(&input)));
    let output = child.wait_with_output().unwrap();
    writer.join().unwrap();
    output.into()
}

/// Runs the program in a folder of its own on an input.
pub fn ceromby(arguments: &[&str], input: impl Into<Vec<u8>>) -> Ran {
    let room = Room::new();
    let mut command = program(&room.0);
    command.args(arguments);
    fed(command, input)
}

/// What the program answers to lines of which each is read and accepted.
pub fn accepted(input: &str) -> String {
    let ran = ceromby(&[], input);
    assert_eq!((ran.status, ran.err.as_str()), (Some(0), ""), "{}", ran.out);
    ran.out
}

/// The last line that the program answers.
pub fn last_line(input: &str) -> String {
    let ran = ceromby(&[], input);
    ran.out.lines().last().unwrap_or_default().to_owned()
}

/// A folder that goes with the test.
pub struct Room(pub PathBuf);

impl Room {
    pub fn new() -> Room {
        static MADE: AtomicU32 = AtomicU32::new(0);
        let made = MADE.fetch_add(1, Ordering::Relaxed);
        let name = format!("ceromby-test-{}-{made}", std::process::id());
        let path = std::env::temp_dir().join(name);
        fs::create_dir(&path).unwrap();
        Room(path)
    }

    /// Runs the program there.
    pub fn ceromby(&self, input: &str) -> Ran {
        fed(program(&self.0), input)
    }

    /// The names of the files there.
    pub fn files(&self) -> Vec<String> {
        let entries = fs::read_dir(&self.0).unwrap();
        let names = entries.map(|entry| entry.unwrap().file_name().into_string().unwrap());
        let mut names: Vec<String> = names.collect();
        names.sort();
        names
    }
}

impl Drop for Room {
    fn drop(&mut self) {
        let _ = fs::remove_dir_all(&self.0);
    }
}
