//! Floors in files: what is replaced, what stays, and what is said when it fails.

use std::fs;
use std::os::unix::fs::{symlink, MetadataExt, PermissionsExt};
use std::path::Path;
use std::process::{Command, Stdio};
use std::thread::sleep;
use std::time::Duration;

use crate::common::{fed, program, Ran, Room, PAIR, PAIR_MADE};

/// The program by a shell that first sets a limit or the like.
fn after(preparation: &str, room: &Room, input: &str) -> Ran {
    let mut shell = Command::new("sh");
    let program = env!("CARGO_BIN_EXE_ceromby");
    shell.args(["-c", &format!("{preparation}; exec '{program}'")]);
    shell.current_dir(&room.0);
    fed(shell, input)
}

fn one_of(lines: &str, expected: &str) -> bool {
    lines.lines().any(|line| line == expected)
}

#[test]
fn a_saved_floor_comes_back() {
    let room = Room::new();
    let ran = room.ceromby(&format!(
        "{PAIR}book 0 7\nrounds 2\nsave x\nload! x\nshow\n"
    ));
    let expected = "book: 7 at (0, 0) on tile 0\n\
                    rounds: 2 done, now at round 2\n\
                    save: 72 bytes in x\n\
                    load: 2 x 1 tiles, hopper 1\n\
                    show: last 7, booked 1, delivered 0, round 0\n| 1 E  1| 0 -  0|\n";
    assert_eq!(ran.out, format!("{PAIR_MADE}{expected}"));
    assert_eq!((ran.status, room.files()), (Some(0), vec!["x".to_owned()]));
}

#[test]
fn an_empty_file_is_said_to_be_the_standard_floor() {
    let room = Room::new();
    fs::write(room.0.join("empty"), "").unwrap();
    let ran = room.ceromby("load empty\n");
    let expected = "load: 4 x 4 tiles, hopper 10; \
                    the file was empty: this is the standard floor, all counters 0\n";
    assert_eq!((ran.out.as_str(), ran.status), (expected, Some(0)));
}

#[test]
fn a_file_that_cannot_be_read_is_no_empty_one() {
    let room = Room::new();
    let cases = [
        ("no", "No such file or directory"),
        (".", "Is a directory"),
        ("no/where", "No such file or directory"),
        // its first page isn't mapped
        ("/proc/self/mem", "Input/output error"),
    ];
    for (file, cause) in cases {
        let ran = room.ceromby(&format!("load {file}\nshow\n"));
        let said = format!("load: {file} can't be read: {cause}");
        assert!(one_of(&ran.out, &said), "{}", ran.out);
        assert!(one_of(
            &ran.out,
            "show: there is no floor; begin with fresh, load or take"
        ));
        assert_eq!(ran.status, Some(3));
    }
}

#[test]
fn an_image_that_is_refused_is_a_refusal() {
    let room = Room::new();
    fs::write(room.0.join("cut"), [28, 0, 1]).unwrap();
    let ran = room.ceromby("load cut\nload /dev/zero\n");
    let expected =
        "load: refused 9: the image ends too soon, or not where it should: it has 3 bytes\n\
                    load: refused 10: a record of another kind than the one due\n";
    assert_eq!((ran.out.as_str(), ran.status), (expected, Some(1)));
}

#[test]
fn only_a_regular_file_is_replaced() {
    let room = Room::new();
    fs::create_dir(room.0.join("folder")).unwrap();
    let before = fs::metadata("/dev/full").unwrap();
    let ran = room.ceromby(&format!(
        "{PAIR}save /dev/full\nsave /dev/null\nsave folder\nsave no/x\n"
    ));
    for said in [
        "save: /dev/full can't be written: it isn't a regular file",
        "save: /dev/null can't be written: it isn't a regular file",
        "save: folder can't be written: it is a directory",
        "save: no/x can't be written: No such file or directory",
    ] {
        assert!(one_of(&ran.out, said), "{}", ran.out);
    }
    assert_eq!(ran.status, Some(3));
    let after = fs::metadata("/dev/full").unwrap();
    assert_eq!((after.ino(), after.mode()), (before.ino(), before.mode()));
    assert_eq!(room.files(), ["folder"]);
}

#[test]
fn a_read_only_file_is_not_replaced() {
    let room = Room::new();
    let file = room.0.join("x");
    fs::write(&file, "old").unwrap();
    fs::set_permissions(&file, fs::Permissions::from_mode(0o444)).unwrap();
    let ran = room.ceromby(&format!("{PAIR}save x\n"));
    assert!(
        one_of(&ran.out, "save: x can't be written: it is read-only"),
        "{}",
        ran.out
    );
    assert_eq!(fs::read(&file).unwrap(), b"old");
}

#[test]
fn a_link_is_followed_to_its_target() {
    let room = Room::new();
    fs::create_dir(room.0.join("folder")).unwrap();
    fs::write(room.0.join("folder/there"), "old").unwrap();
    symlink("folder/first", room.0.join("link")).unwrap();
    symlink("there", room.0.join("folder/first")).unwrap();
    symlink("folder/new", room.0.join("dangling")).unwrap();
    symlink("circle", room.0.join("circle")).unwrap();
    let ran = room.ceromby(&format!("{PAIR}save link\nsave dangling\nsave circle\n"));
    assert_eq!(ran.status, Some(3), "{}", ran.out);
    assert!(ran
        .out
        .contains("save: circle can't be written: too many links"));
    for (link, target) in [("link", "folder/there"), ("dangling", "folder/new")] {
        assert!(fs::symlink_metadata(room.0.join(link))
            .unwrap()
            .is_symlink());
        assert_eq!(fs::read(room.0.join(target)).unwrap().len(), 64);
    }
}

#[test]
fn the_mode_is_kept_and_a_new_file_has_that_of_any_new_file() {
    let room = Room::new();
    let mode = |name: &str| fs::metadata(room.0.join(name)).unwrap().mode() & 0o777;
    fs::write(room.0.join("old"), "").unwrap();
    for bits in [0o600, 0o640, 0o666] {
        let permissions = fs::Permissions::from_mode(bits);
        fs::set_permissions(room.0.join("old"), permissions).unwrap();
        room.ceromby(&format!("{PAIR}save old\n"));
        assert_eq!(mode("old"), bits);
    }
    after("umask 027", &room, &format!("{PAIR}save new\n"));
    assert_eq!(mode("new"), 0o640);
}

/// With no room for a single byte.
#[test]
fn a_save_without_room_leaves_the_old_file_and_nothing_else() {
    let room = Room::new();
    fs::write(room.0.join("x"), "old").unwrap();
    let ran = after(
        "trap '' XFSZ; ulimit -f 0",
        &room,
        &format!("{PAIR}save x\nsave y\n"),
    );
    for file in ["x", "y"] {
        let said = format!("save: {file} can't be written: File too large");
        assert!(one_of(&ran.out, &said), "{}", ran.out);
    }
    assert_eq!(ran.status, Some(3));
    assert_eq!(fs::read(room.0.join("x")).unwrap(), b"old");
    assert_eq!(room.files(), ["x"]);
}

/// The same on a file system of one page, where one can be mounted.
#[test]
fn a_save_on_a_full_file_system_leaves_the_old_file() {
    let mount = "mkdir small && mount -t tmpfs -o size=4k none small && cd small";
    let probe = ["--mount", "--map-root-user", "sh", "-c", mount];
    let room = Room::new();
    let mounted = Command::new("unshare")
        .args(probe)
        .current_dir(&room.0)
        .output();
    if !mounted.is_ok_and(|output| output.status.success()) {
        eprintln!("no file system can be mounted here");
        return;
    }
    fs::remove_dir(room.0.join("small")).unwrap();
    let script = format!(
        "{mount} && printf old >x && '{}'; status=$?; cat x; ls; exit $status",
        env!("CARGO_BIN_EXE_ceromby")
    );
    let mut shell = Command::new("unshare");
    shell.args(["--mount", "--map-root-user", "sh", "-c", &script]);
    shell.current_dir(&room.0);
    let ran = fed(shell, format!("{PAIR}save x\n"));
    let said = "save: x can't be written: No space left on device\noldx\n";
    assert_eq!(ran.out, format!("{PAIR_MADE}{said}"));
    assert_eq!(ran.status, Some(3));
}

/// Saves of two floors in turn, killed at some moment: the file is one of them.
#[test]
fn a_kill_during_a_save_leaves_the_old_file_or_the_new_one() {
    let room = Room::new();
    let image = |calls: &str| {
        room.ceromby(&format!("{PAIR}{calls}save image\n"));
        fs::read(room.0.join("image")).unwrap()
    };
    let (empty, booked) = (image(""), image("book 0 1\n"));
    let turn = format!("{PAIR}save image\nbook 0 1\nsave image\nfresh! 2 1 1 all 100 30 10 20\n");
    let calls = room.0.join("calls");
    fs::write(&calls, turn.repeat(20_000)).unwrap();
    for kill in 0..20 {
        let mut child = program(&room.0)
            .arg(&calls)
            .stdout(Stdio::null())
            .spawn()
            .unwrap();
        sleep(Duration::from_micros(20_000 + 1_370 * kill));
        child.kill().unwrap();
        assert_eq!(
            child.wait().unwrap().code(),
            None,
            "it was killed while it ran"
        );
        let found = fs::read(room.0.join("image")).unwrap();
        assert!(found == empty || found == booked, "{found:?}");
    }
    let left = room.files();
    assert!(left.len() <= 2 + 20, "at most one file a kill: {left:?}");
    assert!(Path::new(&calls).exists());
}
