//! The small figures.

use std::fs;
use std::path::PathBuf;

use ceromby_tool::figures::{run, Error, Options};

use crate::{stored, xml};

const SMALL: Options = Options {
    rounds: None,
    small: true,
    seed: 7,
};

/// A directory of its own that is removed at the end.
struct Room(PathBuf);

impl Room {
    fn new(name: &str) -> Room {
        let name = format!("ceromby-figures-{name}-{}", std::process::id());
        let path = std::env::temp_dir().join(name);
        fs::create_dir(&path).expect("a new directory");
        Room(path)
    }
}

impl Drop for Room {
    fn drop(&mut self) {
        // what is left in a temporary directory harms nobody
        let _ = fs::remove_dir_all(&self.0);
    }
}

/// Name and text of each file.
fn made(name: &str, options: &Options) -> Vec<(String, String)> {
    let room = Room::new(name);
    let files = run(&room.0.join("new"), options, &mut |_, _| {}).expect("figures");
    let read = |path: &PathBuf| {
        let name = path.file_name().expect("a file").to_string_lossy();
        (name.into_owned(), fs::read_to_string(path).expect("text"))
    };
    files.iter().map(read).collect()
}

#[test]
fn small_figures_are_as_stored() {
    let files = made("stored", &SMALL);
    let names: Vec<_> = files.iter().map(|(name, _)| name.as_str()).collect();
    assert_eq!(
        names,
        [
            "figure-7.csv",
            "figure-7.svg",
            "figure-8.csv",
            "figure-8.svg",
            "figure-9.csv",
            "figure-9.svg"
        ]
    );
    for (name, text) in files {
        stored::compare(&format!("figures/{name}"), &text);
    }
}

#[test]
fn charts_are_xml_and_tables_have_a_cell_for_each_head() {
    for (name, text) in made("shape", &SMALL) {
        if name.ends_with(".svg") {
            let root = xml::parse(&text);
            assert_eq!(root.name, "svg");
            assert!(!root.of_class("curve").is_empty());
        } else {
            let cells = |line: &str| line.split(',').count();
            let head = text.lines().next().map(cells);
            assert!(text.lines().all(|line| Some(cells(line)) == head), "{name}");
        }
    }
}

#[test]
fn only_figure_9_depends_on_the_seed() {
    let other = Options { seed: 8, ..SMALL };
    let both = made("one", &SMALL).into_iter().zip(made("two", &other));
    for ((name, one), (_, two)) in both {
        assert_eq!(one != two, name.starts_with("figure-9"), "{name}");
    }
}

#[test]
fn rounds_can_be_chosen() {
    let short = Options {
        rounds: Some(40),
        ..SMALL
    };
    let tables = made("rounds", &short).into_iter();
    for (name, text) in tables.filter(|(name, _)| name.ends_with(".csv")) {
        let at = text.lines().next().expect("heads").split(',');
        let at = at
            .clone()
            .position(|head| head == "rounds")
            .expect("rounds");
        for line in text.lines().skip(1) {
            assert_eq!(line.split(',').nth(at), Some("40"), "{name}");
        }
    }
}

#[test]
fn progress_reaches_its_end_one_by_one() {
    let room = Room::new("progress");
    let mut seen = Vec::new();
    run(&room.0, &SMALL, &mut |done, of| seen.push((done, of))).expect("figures");
    let of = seen.len();
    let expected: Vec<_> = (1..=of).map(|done| (done, of)).collect();
    assert_eq!(seen, expected);
}

#[test]
fn a_directory_that_cannot_be_made_is_named() {
    let room = Room::new("file");
    let file = room.0.join("file");
    fs::write(&file, "").expect("written");
    let error = run(&file, &SMALL, &mut |_, _| {}).expect_err("a file is there");
    assert!(matches!(&error, Error::Write(path, _) if *path == file));
    assert!(error.to_string().starts_with(&file.display().to_string()));
}
