//! How the program ends: its status, a full device, a closed pipe, Ctrl-C.

use std::fs::{File, OpenOptions};
use std::io::{BufRead, BufReader, Read, Write};
use std::os::unix::process::ExitStatusExt;
use std::process::{Child, Command, Stdio};
use std::thread::sleep;
use std::time::Duration;

use crate::common::{ceromby, program, started, Ran, Room, PAIR};

#[test]
fn the_status_is_the_greatest_that_occurred() {
    let status = |lines: &str| ceromby(&[], format!("{PAIR}{lines}")).status;
    assert_eq!(status(""), Some(0));
    assert_eq!(status("round\nshow\nwhere 9\nlist\nend\n"), Some(0));
    assert_eq!(status("stop 1\n"), Some(1));
    assert_eq!(status("rounds 100001\n"), Some(1));
    assert_eq!(status("book 0 1\nfresh 2 1 1 all 100 30 10 20\n"), Some(1));
    assert_eq!(status("list\n0 1 0 0\n0 1 0 0\nend\n"), Some(1));
    assert_eq!(status("lift\nstop 1\nround\n"), Some(2));
    assert_eq!(status("load no\nlift\nstop 1\nround\n"), Some(3));
    assert_eq!(ceromby(&[], "round\n").status, Some(1));
    assert_eq!(ceromby(&[], "").status, Some(0));
}

#[test]
fn an_input_that_cannot_be_read_is_said() {
    let cases = [
        ("no", "No such file or directory"),
        ("/", "Is a directory"),
        ("/proc/self/mem", "Input/output error"),
    ];
    for (file, cause) in cases {
        let ran = ceromby(&[file], "");
        assert_eq!(ran.err, format!("ceromby: {file} can't be read: {cause}\n"));
        assert_eq!((ran.out.as_str(), ran.status), ("", Some(3)));
    }
}

fn with_stdin(stdin: Stdio) -> Ran {
    let room = Room::new();
    program(&room.0).stdin(stdin).output().unwrap().into()
}

#[test]
fn a_standard_input_that_cannot_be_read_is_said() {
    let unreadable = OpenOptions::new().write(true).open("/dev/null").unwrap();
    let cases = [
        (File::open("/").unwrap(), "Is a directory"),
        (unreadable, "Bad file descriptor"),
    ];
    for (stdin, cause) in cases {
        let ran = with_stdin(stdin.into());
        assert_eq!(
            ran.err,
            format!("ceromby: standard input can't be read: {cause}\n")
        );
        assert_eq!(ran.status, Some(3));
    }
}

/// The standard library opens what was closed as an empty file.
#[test]
fn a_closed_standard_input_has_no_lines() {
    let program = env!("CARGO_BIN_EXE_ceromby");
    let ran = Command::new("sh")
        .args(["-c", &format!("'{program}' <&-")])
        .output()
        .unwrap();
    let ran = Ran::from(ran);
    assert_eq!(
        (ran.out.as_str(), ran.err.as_str(), ran.status),
        ("", "", Some(0))
    );
}

fn with_stdout(arguments: &[&str], stdout: impl Into<Stdio>) -> Ran {
    let room = Room::new();
    let mut child = program(&room.0)
        .args(arguments)
        .stdin(Stdio::piped())
        .stdout(stdout)
        .stderr(Stdio::piped())
        .spawn()
        .unwrap();
    let mut stdin = child.stdin.take().unwrap();
    let _ = stdin.write_all(format!("{PAIR}round\n").as_bytes());
    drop(stdin);
    child.wait_with_output().unwrap().into()
}

#[test]
fn an_output_that_cannot_be_written_is_said() {
    let full = || OpenOptions::new().write(true).open("/dev/full").unwrap();
    let said = "ceromby: the output can't be written: No space left on device\n";
    for arguments in [vec![], vec!["--json"], vec!["help"], vec!["version"]] {
        let ran = with_stdout(&arguments, full());
        assert_eq!(
            (ran.err.as_str(), ran.status),
            (said, Some(3)),
            "{arguments:?}"
        );
    }
    let ran = with_stdout(&[], File::open("/dev/null").unwrap());
    let said = "ceromby: the output can't be written: Bad file descriptor\n";
    assert_eq!((ran.err.as_str(), ran.status), (said, Some(3)));
}

#[test]
fn a_pipe_that_is_closed_ends_it_quietly() {
    let room = Room::new();
    let (mut child, mut stdin) = started(program(&room.0));
    stdin.write_all(PAIR.as_bytes()).unwrap();
    let mut line = String::new();
    BufReader::new(child.stdout.take().unwrap())
        .read_line(&mut line)
        .unwrap();
    assert_eq!(line, "fresh: 2 x 1 tiles, hopper 1\n");
    // whoever read it is gone
    let _ = stdin.write_all(&b"round\n".repeat(1000));
    drop(stdin);
    let ran = Ran::from(child.wait_with_output().unwrap());
    assert_eq!((ran.err.as_str(), ran.status), ("", Some(3)));
}

/// The program with Ctrl-C as at a terminal, or ignored, as a script's background
/// programs have it.
fn with_signal(room: &Room, how: &str) -> Command {
    let mut command = Command::new("env");
    command.arg(format!("--{how}-signal=INT"));
    command.arg(env!("CARGO_BIN_EXE_ceromby"));
    command.current_dir(&room.0);
    command
}

fn interrupt(child: &Child) {
    let id = child.id().to_string();
    let sent = Command::new("kill").args(["-INT", &id]).status().unwrap();
    assert!(sent.success());
}

/// Where nobody types, Ctrl-C ends the rounds and then the program.
#[test]
fn ctrl_c_ends_rounds_and_a_run_without_a_terminal() {
    let room = Room::new();
    let (mut child, mut stdin) = started(with_signal(&room, "default"));
    let barge: String = (0..4).map(|floor| format!("{PAIR}put {floor}\n")).collect();
    let input = format!("{barge}allowance 1\n{}", "on 0 rounds 100000\n".repeat(50));
    stdin.write_all(input.as_bytes()).unwrap();
    let mut out = BufReader::new(child.stdout.take().unwrap());
    let mut printed = String::new();
    while !printed.ends_with("now at round 100000\n") {
        assert_ne!(out.read_line(&mut printed).unwrap(), 0);
    }
    // well into the next ones
    sleep(Duration::from_millis(100));
    interrupt(&child);
    out.read_to_string(&mut printed).unwrap();
    let last = printed.lines().last().unwrap();
    assert!(last.contains(" done, interrupted, now at round "), "{last}");
    assert_eq!(child.wait().unwrap().code(), Some(130));
}

#[test]
fn ctrl_c_ends_a_run_that_waits_for_its_input() {
    let room = Room::new();
    let (mut child, mut stdin) = started(with_signal(&room, "default"));
    stdin.write_all(PAIR.as_bytes()).unwrap();
    let mut line = String::new();
    BufReader::new(child.stdout.take().unwrap())
        .read_line(&mut line)
        .unwrap();
    interrupt(&child);
    assert_eq!(child.wait().unwrap().code(), Some(130));
    drop(stdin);
}

#[test]
fn ctrl_c_stays_ignored_where_it_was() {
    let room = Room::new();
    let (mut child, mut stdin) = started(with_signal(&room, "ignore"));
    stdin.write_all(PAIR.as_bytes()).unwrap();
    let mut out = BufReader::new(child.stdout.take().unwrap());
    let mut line = String::new();
    out.read_line(&mut line).unwrap();
    interrupt(&child);
    stdin.write_all(b"rounds 10\n").unwrap();
    drop(stdin);
    let mut rest = String::new();
    out.read_to_string(&mut rest).unwrap();
    assert_eq!(rest, "rounds: 10 done, now at round 10\n");
    assert_eq!(child.wait().unwrap().code(), Some(0));
}

/// A file that doesn't end: the first Ctrl-C finds nothing that looks at it.
#[test]
fn ctrl_c_twice_ends_a_load_that_waits() {
    let room = Room::new();
    let made = Command::new("mkfifo")
        .arg(room.0.join("pipe"))
        .status()
        .unwrap();
    assert!(made.success());
    let (mut child, mut stdin) = started(with_signal(&room, "default"));
    stdin
        .write_all(format!("{PAIR}load pipe\n").as_bytes())
        .unwrap();
    let mut line = String::new();
    BufReader::new(child.stdout.take().unwrap())
        .read_line(&mut line)
        .unwrap();
    sleep(Duration::from_millis(100));
    interrupt(&child);
    sleep(Duration::from_millis(100));
    assert_eq!(child.try_wait().unwrap(), None);
    interrupt(&child);
    assert_eq!(child.wait().unwrap().signal(), Some(2));
}
