//! The command line.

use std::fs;

use crate::common::{ceromby, fed, program, Room, PAIR, PAIR_MADE};

#[test]
fn a_file_a_dash_or_nothing_names_the_input() {
    let room = Room::new();
    fs::write(room.0.join("calls"), PAIR).unwrap();
    for (arguments, input) in [(vec!["calls"], ""), (vec!["-"], PAIR), (vec![], PAIR)] {
        let mut command = program(&room.0);
        command.args(arguments);
        let ran = fed(command, input);
        assert_eq!((ran.out.as_str(), ran.status), (PAIR_MADE, Some(0)));
    }
}

#[test]
fn a_file_with_a_commands_name_is_named_by_its_path() {
    let room = Room::new();
    for name in ["help", "version"] {
        fs::write(room.0.join(name), PAIR).unwrap();
        for arguments in [
            vec![format!("./{name}")],
            vec!["--".to_owned(), name.to_owned()],
        ] {
            let mut command = program(&room.0);
            command.args(arguments);
            assert_eq!(fed(command, "").out, PAIR_MADE);
        }
    }
}

#[test]
fn help_and_version_are_commands_and_options() {
    let help = ceromby(&["help"], "");
    assert!(help.out.starts_with("usage: ceromby "), "{}", help.out);
    assert_eq!(ceromby(&["--help"], "").out, help.out);
    let version = ceromby(&["version"], "");
    let header = include_str!("../../../../include/ceromby.h");
    let part = |name: &str| {
        let (_, rest) = header
            .split_once(&format!("CEROMBY_VERSION_{name} "))
            .unwrap();
        rest.lines().next().unwrap().to_owned()
    };
    let library = ["MAJOR", "MINOR", "PATCH"].map(part).join(".");
    let end = format!(", library {library}\n");
    assert!(version.out.ends_with(&end), "{}", version.out);
    assert_eq!(ceromby(&["-V"], "").out, version.out);
    assert_eq!((help.status, version.status), (Some(0), Some(0)));
}

#[test]
fn what_the_command_line_cannot_have_is_said_with_the_usage() {
    let cases: [(&[&str], &str); 4] = [
        (&["--lift"], "--lift is no option"),
        (&["-x", "calls"], "-x is no option"),
        (&["one", "two"], "two: one file at a time"),
        (&["version", "two"], "two is a word too many"),
    ];
    for (arguments, complaint) in cases {
        let ran = ceromby(arguments, PAIR);
        assert_eq!((ran.out.as_str(), ran.status), ("", Some(2)));
        let expected = format!("ceromby: {complaint}\nusage: ceromby ");
        assert!(ran.err.starts_with(&expected), "{}", ran.err);
    }
}

#[test]
fn stop_at_first_ends_with_the_first_line_that_is_not_accepted() {
    for (bad, status) in [("stop 1", 1), ("lift", 2), ("load no", 3)] {
        let ran = ceromby(&["--stop-at-first"], format!("{PAIR}round\n{bad}\nround\n"));
        assert_eq!(ran.out.lines().count(), 3, "{}", ran.out);
        assert_eq!(ran.status, Some(status));
    }
    let ran = ceromby(&["--stop-at-first"], format!("{PAIR}round\n"));
    assert_eq!(ran.status, Some(0));
}
