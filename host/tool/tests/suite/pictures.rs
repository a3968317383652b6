//! `ceromby draw` and `ceromby figures`, and `draw` among the calls.

use std::fs;

use crate::common::{ceromby, fed, program, Room, PAIR, PAIR_MADE};

#[test]
fn the_image_of_a_file_or_of_standard_input_is_drawn() {
    let room = Room::new();
    let saved = room.ceromby(&format!("{PAIR}book 0 7\nsave x\ndraw x.svg\n"));
    assert_eq!(saved.status, Some(0), "{}", saved.out);
    let drawn = fs::read_to_string(room.0.join("x.svg")).unwrap();
    assert!(drawn.starts_with("<svg ") && drawn.contains("canister-7"));
    let bytes = drawn.len();
    let said = format!("draw: {bytes} bytes in x.svg\n");
    assert!(saved.out.starts_with(PAIR_MADE) && saved.out.ends_with(&said));

    let mut named = program(&room.0);
    named.args(["draw", "x"]);
    let named = fed(named, "");
    let expected = (drawn.as_str(), "", Some(0));
    assert_eq!(
        (named.out.as_str(), named.err.as_str(), named.status),
        expected
    );
    let mut shell = std::process::Command::new("sh");
    let ceromby = env!("CARGO_BIN_EXE_ceromby");
    shell.args([
        "-c",
        &format!("'{ceromby}' draw <x && '{ceromby}' draw - <x"),
    ]);
    shell.current_dir(&room.0);
    assert_eq!(fed(shell, "").out, format!("{drawn}{drawn}"));
}

#[test]
fn what_cannot_be_drawn_is_said_and_nothing_is_printed() {
    let room = Room::new();
    fs::write(room.0.join("cut"), [0]).unwrap();
    let rows = [
        (
            "cut",
            1,
            "ceromby: cut: refused 9: image ends within a record",
        ),
        ("none", 3, "ceromby: none can't be read: "),
        (".", 3, "ceromby: . can't be read: "),
    ];
    for (file, status, message) in rows {
        let mut command = program(&room.0);
        command.args(["draw", file]);
        let ran = fed(command, "");
        assert_eq!((ran.out.as_str(), ran.status), ("", Some(status)), "{file}");
        assert!(ran.err.starts_with(message), "{}", ran.err);
    }
    let empty = ceromby(&["draw"], "");
    assert!(empty.out.starts_with("<svg "));
    let warned = "ceromby: standard input is empty: this is the standard floor\n";
    assert_eq!((empty.err.as_str(), empty.status), (warned, Some(0)));
}

#[test]
fn words_that_they_do_not_take_are_said_with_the_usage() {
    let cases: [(&[&str], &str); 8] = [
        (&["draw", "a", "b"], "b is a word too many"),
        (&["draw", "--big"], "--big is no option of draw"),
        (&["figures"], "figures needs a directory"),
        (&["figures", "a", "b"], "b is a word too many"),
        (
            &["figures", "a", "--lift"],
            "--lift is no option of figures",
        ),
        (&["figures", "a", "--rounds"], "--rounds K needs a number"),
        (
            &["figures", "a", "--rounds", "x"],
            "--rounds K needs a number",
        ),
        (&["figures", "a", "--seed", "-1"], "--seed N needs a number"),
    ];
    for (arguments, message) in cases {
        let ran = ceromby(arguments, "");
        assert_eq!((ran.out.as_str(), ran.status), ("", Some(2)));
        assert!(
            ran.err.starts_with(&format!("ceromby: {message}\n")),
            "{}",
            ran.err
        );
    }
}

#[test]
fn figures_are_written_to_a_directory_that_is_made() {
    let room = Room::new();
    let mut command = program(&room.0);
    command.args(["figures", "new/dir", "--small", "--rounds", "40"]);
    let ran = fed(command, "");
    let names = ["figure-7", "figure-8", "figure-9"];
    let each = names
        .iter()
        .flat_map(|name| [format!("new/dir/{name}.csv"), format!("new/dir/{name}.svg")]);
    let each: Vec<_> = each.collect();
    let listed: Vec<_> = ran.out.lines().map(str::to_owned).collect();
    assert_eq!(
        (listed, ran.err.as_str(), ran.status),
        (each.clone(), "", Some(0))
    );
    assert!(each.iter().all(|file| room.0.join(file).is_file()));

    fs::write(room.0.join("taken"), "").unwrap();
    let mut command = program(&room.0);
    command.args(["figures", "taken"]);
    let ran = fed(command, "");
    assert_eq!((ran.out.as_str(), ran.status), ("", Some(3)));
    assert!(ran.err.starts_with("ceromby: taken: "), "{}", ran.err);
}
