//! The list of calls that showed the console in Rattle, and what it printed.

use std::path::PathBuf;

use crate::common::{fed, program, Ran, Room};

fn sample(name: &str) -> PathBuf {
    let here = PathBuf::from(env!("CARGO_MANIFEST_DIR"));
    here.join("tests/sample").join(name)
}

fn read(name: &str) -> String {
    std::fs::read_to_string(sample(name)).unwrap()
}

/// Runs the program on the file.
fn run(room: &Room, name: &str) -> Ran {
    let mut command = program(&room.0);
    command.arg(sample(name));
    fed(command, "")
}

/// Without its first line, if it greets, and without the lines of `help`.
fn without_help(printed: &str) -> Vec<&str> {
    let mut in_help = false;
    let mut lines: Vec<&str> = printed.lines().collect();
    lines.retain(|line| {
        in_help = line.starts_with("help: ") || in_help && line.starts_with("  ");
        !in_help && !line.starts_with("console: begin with")
    });
    lines
}

#[test]
fn every_line_of_the_old_output_begins_the_new_one() {
    let (old, new) = (read("console.out"), read("ceromby.out"));
    let (old, new) = (without_help(&old), without_help(&new));
    assert_eq!(old.len(), new.len());
    for (old, new) in old.iter().zip(&new) {
        let rest = new.strip_prefix(old);
        let rest = rest.unwrap_or_else(|| panic!("{new:?} doesn't begin with {old:?}"));
        let explained = rest.starts_with(": ") || rest.starts_with("; ");
        assert!(rest.is_empty() || explained, "{new:?}");
    }
}

/// Two of its lines name files that can't be read or written: so 3, and without
/// them 2.
#[test]
fn the_old_sample_prints_what_is_stored() {
    let room = Room::new();
    let ran = run(&room, "console.txt");
    assert_eq!(ran.out, read("ceromby.out"));
    assert_eq!((ran.status, ran.err.as_str()), (Some(3), ""));
    assert_eq!(room.files(), ["floor.image"]);

    let readable = read("console.txt").replace("load! no.image\nsave no/such/folder\n", "");
    assert_eq!(room.ceromby(&readable).status, Some(2));
}

#[test]
fn the_sample_day_is_accepted_throughout() {
    let ran = run(&Room::new(), "../../samples/day.txt");
    assert_eq!((ran.status, ran.err.as_str()), (Some(0), ""), "{}", ran.out);
    assert_eq!(ran.out, read("day.out"));
}
