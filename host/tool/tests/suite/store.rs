//! `--store FILE`: what is there when the next program begins, and what a store
//! has recorded.

use std::fs;
use std::io::{BufRead, BufReader, Read, Write};
use std::process::{Command, Stdio};
use std::thread::sleep;
use std::time::Duration;

use ceromby_store::sqlite::{Connection, Missing};

use crate::common::{ceromby, fed, program, started, Ran, Room, PAIR, PAIR_MADE};

/// Lines on the store of a folder.
fn on_store(room: &Room, arguments: &[&str], input: &str) -> Ran {
    let mut command = program(&room.0);
    command.args(["--store", "barge.store"]).args(arguments);
    fed(command, input)
}

/// What lines of which each is accepted answer, without the dates.
fn accepted(room: &Room, input: &str) -> String {
    let ran = on_store(room, &[], input);
    assert_eq!(ran.status, Some(0), "{}{}", ran.out, ran.err);
    dateless(&ran.out)
}

/// With every date and time as `DATE`.
fn dateless(text: &str) -> String {
    let words = text.split(' ').filter(|word| !is_clock(word));
    let words = words.map(|word| if is_date(word) { "DATE" } else { word });
    words.collect::<Vec<_>>().join(" ")
}

fn is_date(word: &str) -> bool {
    let parts: Vec<_> = word.split('-').map(str::len).collect();
    parts == [4, 2, 2] && word.starts_with("20")
}

fn is_clock(word: &str) -> bool {
    let parts: Vec<_> = word.split(':').map(str::len).collect();
    parts == [2, 2, 2]
}

#[test]
fn the_next_program_goes_on() {
    let room = Room::new();
    let first = on_store(&room, &[], &format!("{PAIR}book 0 5\nround\n"));
    assert_eq!(first.err, "ceromby: barge.store is a new store\n");
    assert_eq!(first.status, Some(0));
    let second = on_store(&room, &[], "show\nrounds 3\nwhere 5\n");
    assert_eq!((second.status, second.err.as_str()), (Some(0), ""));
    let expected = "show: last 5, booked 1, delivered 0, round 1\n\
                    | 1 E  1| 0 -  0|\n\
                    round 4: delivered 5\n\
                    rounds: 3 done, now at round 4\n\
                    where: 5 delivered in round 4 at hopper 1\n";
    assert_eq!(second.out, expected);
    assert_eq!(room.files(), ["barge.store"]);
}

/// Killed after its answer, a call is there; plan, layouts and barge too.
#[test]
fn what_was_answered_is_there_after_a_kill() {
    let room = Room::new();
    let calls = [
        PAIR.trim(),
        "keep NETS",
        "put 1",
        PAIR.trim(),
        "entry 1 0",
        "release 1",
    ];
    for call in calls {
        let mut command = program(&room.0);
        command.args(["--store", "barge.store"]);
        let (mut child, mut input) = started(command);
        writeln!(input, "{call}").unwrap();
        let mut line = String::new();
        let mut out = BufReader::new(child.stdout.take().unwrap());
        out.read_line(&mut line).unwrap();
        assert!(!line.is_empty(), "{call}");
        child.kill().unwrap();
        child.wait().unwrap();
    }
    let out = accepted(&room, "entries\nwhere 1\ntake! 1\nlayouts\nhistory\n");
    let expected = "entries: label 1 on tile 0: booked, number 1\n\
                    where: 1 at (0, 0) on tile 0\n\
                    take: 2 x 1 tiles, hopper 1\n\
                    plan: no entries, its floor is gone\n\
                    layouts: NETS runs 0, 1\n\
                    history: 7 of 7 calls, times are UTC\n\
                    \u{20}     1 DATE fresh 2 1 1 0 100 30 10 20: accepted\n\
                    \u{20}     2 DATE keep NETS: accepted\n\
                    \u{20}     3 DATE put 1: accepted\n\
                    \u{20}     4 DATE fresh 2 1 1 0 100 30 10 20: accepted\n\
                    \u{20}     5 DATE entry 1 0: accepted\n\
                    \u{20}     6 DATE release 1: accepted\n\
                    \u{20}     7 DATE take! 1: accepted\n";
    assert_eq!(out, expected);
}

#[test]
fn history_and_deliveries() {
    let room = Room::new();
    let day = format!("{PAIR}book 0 5 0 0\nbook 0 6 0 40\nbook 0 7 1 1\nrounds 4\n");
    let ran = on_store(&room, &[], &day);
    assert_eq!(ran.status, Some(1));
    let out = accepted(&room, "history 2\ndelivered\ndelivered 1\n");
    let expected = "history: 2 of 8 calls, times are UTC\n\
                    \u{20}     7 DATE round: accepted\n\
                    \u{20}     8 DATE round: accepted\n\
                    delivered: the last 2, times are UTC\n\
                    \u{20}     DATE 5 at hopper 1 in round 4 of run 1, call 8\n\
                    \u{20}     DATE 6 at hopper 1 in round 4 of run 1, call 8\n\
                    delivered: the last 1, times are UTC\n\
                    \u{20}     DATE 6 at hopper 1 in round 4 of run 1, call 8\n";
    assert_eq!(out, expected);
    let refused = accepted(&room, "history 6\n");
    let close = "      4 DATE book 0 7 1 1: refused 34: some canister of the tile";
    assert!(refused.contains(close), "{refused}");

    let json = on_store(&room, &["--json"], "history 1\ndelivered 1\n").out;
    let mut lines = json.lines();
    let history = lines.next().unwrap();
    let gave = r#""run":1,"floor":null,"text":"round","key":null,"refusal":0,"answer":{"round":4,"deliveries":[{"hopper":1,"numbers":[5,6]}],"closed":[],"labels":[]}}]}}"#;
    assert!(history.ends_with(gave), "{history}");
    let gave = r#""number":6,"hopper":1,"run":1,"round":4,"floor":null,"call":8}]}}"#;
    assert!(lines.next().unwrap().ends_with(gave), "{json}");
}

/// The same key again: the same answer, and nothing changes; also for a refusal, a
/// load and a list.
#[test]
fn keys() {
    let room = Room::new();
    fs::write(room.0.join("empty"), "").unwrap();
    let lines = [
        (
            "key a load empty",
            "load: 4 x 4 tiles, hopper 10; the file was empty",
        ),
        ("key b book 4 5 0 0", "book: 5 at (0, 0) on tile 4"),
        (
            "key c book 4 6 1 1",
            "book: refused 34: too near a canister of the tile",
        ),
        ("key d round", "round 1: delivered none"),
        (
            "key e list\n4 7 300 0\n4 8 301 0\nend",
            "list 1: book: 7 at (300, 0) on tile 4\n\
             list 2: book: refused 34: too near a canister of the tile",
        ),
    ];
    for (at, (line, answer)) in (1..).zip(lines) {
        let first = on_store(&room, &[], &format!("{line}\n"));
        assert!(first.out.starts_with(answer), "{}", first.out);
        assert!(!first.out.contains("key:"), "{}", first.out);
        for _ in 0..2 {
            let again = on_store(&room, &[], &format!("{line}\n"));
            assert!(again.out.starts_with(answer), "{}", again.out);
            let end = format!("\nkey: this is the answer of call {at}, made earlier\n");
            assert!(again.out.ends_with(&end), "{}", again.out);
            assert_eq!(again.status, first.status, "{line}");
        }
    }
    let other = on_store(&room, &[], "key b book 4 9 0 0\nround\n");
    let expected = "book: the key belongs to call 2, which is another one; no call was made\n\
                    round 2: delivered none\n";
    assert_eq!((other.out.as_str(), other.status), (expected, Some(1)));
    let json = on_store(&room, &["--json"], "key d round\nround\n").out;
    let mut lines = json.lines();
    let repeated = lines.next().unwrap();
    assert!(
        repeated.contains(r#""arguments":{"key":"d"}"#),
        "{repeated}"
    );
    assert!(repeated.ends_with(r#","repeated":4}"#), "{repeated}");
    assert!(!lines.next().unwrap().contains("repeated"));
    let out = accepted(&room, "history\n");
    assert!(out.starts_with("history: 7 of 7 calls"), "{out}");
    assert!(
        out.contains(" list (2 entries): accepted, key e\n"),
        "{out}"
    );
}

#[test]
fn without_a_store() {
    let words = "there is no store; ceromby --store FILE has one";
    let input =
        format!("{PAIR}history\ndelivered\ntrim 2026-11-18\nkey a round\nkey a list\nshow\n");
    let ran = ceromby(&[], input);
    let expected = format!(
        "{PAIR_MADE}history: {words}\ndelivered: {words}\ntrim: {words}\nround: {words}\n\
         list: {words}\nshow: last 0, booked 0, delivered 0, round 0\n| 0 - --| 0 -  0|\n"
    );
    assert_eq!((ran.out, ran.status), (expected, Some(1)));
    let ran = ceromby(&["--store"], "");
    assert!(
        ran.err.starts_with("ceromby: --store names no file\n"),
        "{}",
        ran.err
    );
    assert_eq!(ran.status, Some(2));
}

#[test]
fn lines_that_cannot_be_read() {
    let room = Room::new();
    for (line, why) in [
        ("key", "KEY is missing; expected: key KEY CALL"),
        ("key a", "CALL is missing; expected: key KEY CALL"),
        (
            "key a show",
            "show can't come here; expected: key KEY, then one call",
        ),
        (
            "key a rounds 3",
            "rounds can't come here; expected: key KEY, then one call",
        ),
        (
            "key a book 4",
            "NUMBER is missing; expected: book TILE NUMBER [A B]",
        ),
        ("history all", "all is no number; expected: history [N]"),
        ("trim", "DAY is missing; expected: trim DAY"),
    ] {
        let ran = on_store(&room, &[], &format!("{line}\n"));
        let start = format!("line 1: cannot read: {line}: {why}");
        assert!(ran.out.starts_with(&start), "{}", ran.out);
        assert_eq!(ran.status, Some(2));
    }
    for day in ["now", "2026", "18.11.2026", "2026-02-30"] {
        let ran = on_store(&room, &[], &format!("trim {day}\n"));
        let expected = format!("trim: {day} is no day; expected: one as 2026-11-18\n");
        assert_eq!((ran.out, ran.status), (expected, Some(2)));
    }
}

/// Calls before a day go from the history; the floor stays.
#[test]
fn trimming() {
    let room = Room::new();
    accepted(&room, &format!("{PAIR}key k book 0 5\nrounds 4\n"));
    let date = Command::new("date")
        .args(["-u", "-d", "tomorrow", "+%F"])
        .output();
    let tomorrow = String::from_utf8(date.unwrap().stdout).unwrap();
    let trims = format!("trim 2020-01-01\ntrim {tomorrow}history\nshow\n");
    let out = accepted(&room, &trims);
    let expected = "trim: 0 calls before DATE removed, with 0 deliveries; calls with a key stay\n\
                    trim: 5 calls before DATE removed, with 1 deliveries; calls with a key stay\n\
                    history: 1 of 6 calls, times are UTC\n\
                    \u{20}     2 DATE book 0 5: accepted, key k\n\
                    show: last 5, booked 1, delivered 1, round 4\n\
                    | 0 E  1| 0 -  0|\n";
    assert_eq!(out, expected);
}

/// A file that is no store, or a damaged one, is refused and stays as it is.
#[test]
fn files_that_are_no_store() {
    let room = Room::new();
    let path = room.0.join("barge.store");
    let refused = |what: &str| {
        let before = fs::read(&path).unwrap();
        let ran = on_store(&room, &[], PAIR);
        assert_eq!((ran.status, ran.out.as_str()), (Some(3), ""));
        assert_eq!(ran.err, format!("ceromby: {what}\n"));
        assert_eq!(fs::read(&path).unwrap(), before);
    };
    fs::write(&path, PAIR).unwrap();
    refused("barge.store is no store");
    fs::remove_file(&path).unwrap();
    accepted(&room, &format!("{PAIR}book 0 5\n"));
    let sql = |text: &str| {
        let db = Connection::open(&path, Missing::Refused).unwrap();
        db.execute(text).unwrap();
    };
    sql("PRAGMA user_version = 2");
    refused("the store has version 2, and this program knows 1 alone");
    sql("PRAGMA user_version = 1; UPDATE floor SET rounds = 9");
    refused("the store is damaged: floor 4 has a wrong checksum");
    let mut command = program(&room.0);
    command.args(["--store", "no/barge.store"]);
    let ran = fed(command, PAIR);
    let err = "ceromby: no/barge.store isn't opened: No such file or directory (os error 2)\n";
    assert_eq!((ran.err.as_str(), ran.status), (err, Some(3)));
}

/// Two programs on one store: each shows what the other did; while one is kept
/// out, its line is an error, and the next one is made.
#[test]
fn two_programs() {
    let room = Room::new();
    accepted(&room, PAIR);
    let start = || {
        let mut command = program(&room.0);
        command.args(["--store", "barge.store"]);
        let (mut child, input) = started(command);
        let out = BufReader::new(child.stdout.take().unwrap());
        (child, input, out)
    };
    let mut programs = [start(), start()];
    for turn in 1..5 {
        let (_, input, out) = &mut programs[turn % 2];
        writeln!(input, "round").unwrap();
        let mut line = String::new();
        out.read_line(&mut line).unwrap();
        assert_eq!(line, format!("round {turn}: delivered none\n"));
    }
    let mut turn = 4;
    let lock = Connection::open(&room.0.join("barge.store"), Missing::Refused).unwrap();
    lock.execute("BEGIN IMMEDIATE").unwrap();
    let (_, input, out) = &mut programs[0];
    writeln!(input, "round").unwrap();
    let mut line = String::new();
    out.read_line(&mut line).unwrap();
    let busy = "round: another program has held the store for 5 s; no call was made\n";
    assert_eq!(line, busy);
    lock.execute("ROLLBACK").unwrap();
    for (mut child, mut input, mut out) in programs {
        turn += 1;
        writeln!(input, "round").unwrap();
        let mut line = String::new();
        out.read_line(&mut line).unwrap();
        assert_eq!(line, format!("round {turn}: delivered none\n"));
        drop(input);
        let status = child.wait().unwrap().code();
        assert_eq!(status, Some(if turn == 5 { 3 } else { 0 }));
    }
}

/// A program that holds the lock of a room's store.
fn locked(room: &Room) -> Connection {
    let lock = Connection::open(&room.0.join("barge.store"), Missing::Refused).unwrap();
    lock.execute("BEGIN IMMEDIATE").unwrap();
    lock
}

/// Types a line and gives the next line that is answered.
fn answer(input: &mut impl Write, out: &mut impl BufRead, line: &str) -> String {
    writeln!(input, "{line}").unwrap();
    let mut answered = String::new();
    out.read_line(&mut answered).unwrap();
    answered
}

#[test]
fn a_list_that_a_busy_store_did_not_take_is_sent_by_the_next_end() {
    let room = Room::new();
    accepted(&room, PAIR);
    let mut command = program(&room.0);
    command.args(["--store", "barge.store"]);
    command.stdin(Stdio::piped()).stdout(Stdio::piped());
    let mut child = command.stderr(Stdio::null()).spawn().unwrap();
    let mut input = child.stdin.take().unwrap();
    let mut out = BufReader::new(child.stdout.take().unwrap());
    let opened = answer(&mut input, &mut out, "round");
    assert_eq!(opened, "round 1: delivered none\n");
    let lock = locked(&room);
    write!(input, "list\n0 1 0 0\n0 2 40 0\n").unwrap();
    let busy = "list: another program has held the store for 5 s; no call was made\n";
    assert_eq!(
        answer(&mut input, &mut out, "end").replace("end:", "list:"),
        busy
    );
    lock.execute("ROLLBACK").unwrap();
    let first = answer(&mut input, &mut out, "end");
    assert_eq!(first, "list 1: book: 1 at (0, 0) on tile 0\n");
    drop(input);
    let mut rest = String::new();
    out.read_to_string(&mut rest).unwrap();
    assert_eq!(rest, "list 2: book: 2 at (40, 0) on tile 0\n");
    assert_eq!(child.wait().unwrap().code(), Some(3));
}

#[test]
fn a_list_begun_again_keeps_its_key() {
    let room = Room::new();
    accepted(&room, PAIR);
    let again = "key K list\n0 9 0 0\nlist\n0 1 0 0\nend\n";
    let once = accepted(&room, again);
    assert_eq!(once, "list 1: book: 1 at (0, 0) on tile 0\n");
    let twice = accepted(&room, "key K list\n0 1 0 0\nend\n");
    assert!(
        twice.starts_with(&once) && twice.contains("made earlier"),
        "{twice}"
    );
}

#[test]
fn the_store_in_use_is_not_saved_over() {
    let room = Room::new();
    accepted(&room, PAIR);
    std::os::unix::fs::symlink("barge.store", room.0.join("link")).unwrap();
    for file in [
        "barge.store",
        "./barge.store",
        "link",
        "barge.store-journal",
    ] {
        for word in ["save", "draw"] {
            let ran = on_store(&room, &[], &format!("{word} {file}\n"));
            let said = format!("{word}: {file} can't be written: it is the store\n");
            assert_eq!((ran.out.as_str(), ran.status), (said.as_str(), Some(3)));
        }
    }
    assert_eq!(accepted(&room, "round\n"), "round 1: delivered none\n");
}

#[test]
fn rounds_that_were_made_are_told_where_the_next_is_not() {
    let room = Room::new();
    accepted(&room, PAIR);
    let ran = on_store(&room, &["--json"], "trim 2999-01-01\n");
    assert_eq!(ran.status, Some(1), "{}", ran.out);
    assert!(ran.out.contains("is after tomorrow"), "{}", ran.out);
    let mut command = program(&room.0);
    command.args(["--store", "barge.store", "--json"]);
    command.stdin(Stdio::piped()).stdout(Stdio::piped());
    let mut child = command.stderr(Stdio::null()).spawn().unwrap();
    let mut input = child.stdin.take().unwrap();
    let mut out = BufReader::new(child.stdout.take().unwrap());
    writeln!(input, "rounds 100000").unwrap();
    sleep(Duration::from_millis(500));
    let lock = loop {
        let lock = Connection::open(&room.0.join("barge.store"), Missing::Refused).unwrap();
        if lock.execute("BEGIN IMMEDIATE").is_ok() {
            break lock;
        }
    };
    let mut line = String::new();
    out.read_line(&mut line).unwrap();
    lock.execute("ROLLBACK").unwrap();
    assert!(
        line.contains("\"status\":3") && line.contains("rounds done, then"),
        "{line}"
    );
    let done = line.split("\"gave\":{\"rounds\":").nth(1).unwrap();
    let done: u64 = done.split(',').next().unwrap().parse().unwrap();
    drop(input);
    child.wait().unwrap();
    let shown = accepted(&room, "show\n");
    assert!(
        done > 0 && shown.contains(&format!("round {done}\n")),
        "{done}: {shown}"
    );
}

#[test]
fn a_store_whose_making_was_cut_off_is_made() {
    let room = Room::new();
    std::fs::write(room.0.join("barge.store"), "").unwrap();
    assert!(accepted(&room, PAIR).ends_with(PAIR_MADE));
}
