//! The counts of the standard runs as `counts.txt` stores them, a part for each
//! run. They depend on nothing but the seed, so a run that counts otherwise has
//! met something else.

use std::fs;
use std::io;

/// Where they are stored.
const FILE: &str = concat!(env!("CARGO_MANIFEST_DIR"), "/counts.txt");

/// How many lines of each side a difference shows.
const SHOWN: usize = 5;

/// The runs, in the order of the file.
#[derive(Clone, Copy)]
pub enum Part {
    Ordinary,
    Faults,
    Page,
}

impl Part {
    /// The line that begins it.
    const fn head(self) -> &'static str {
        match self {
            Part::Ordinary => "== compare",
            Part::Faults => "== compare --faults",
            Part::Page => "== compare --page",
        }
    }
}

/// The lines between a part's head and the next one. None if it has no head.
fn lines_of(text: &str, part: Part) -> Option<Vec<&str>> {
    let mut lines = text.lines().skip_while(|line| *line != part.head());
    lines.next()?;
    Some(lines.take_while(|line| !line.starts_with("== ")).collect())
}

/// The text of the file.
fn text_of(parts: &[(Part, Vec<String>)]) -> String {
    let mut text = String::from("# What the runs of compare met, with seed 1.\n");
    text += "# Made anew by compare --write-counts; docs/TESTING.md says how.\n";
    for (part, lines) in parts {
        text += &format!("{}\n", part.head());
        for line in lines {
            text += &format!("{line}\n");
        }
    }
    text
}

/// The first lines that differ, or None. Lines that both begin or end with are
/// left out, so that a line more is shown as one.
fn difference(stored: &[&str], counted: &[&str]) -> Option<String> {
    let same = |(one, other): &(&&str, &&str)| one == other;
    let before = stored.iter().zip(counted).take_while(same).count();
    let (stored, counted) = (&stored[before..], &counted[before..]);
    let after = stored.iter().rev().zip(counted.iter().rev());
    let after = after.take_while(same).count();
    let stored = &stored[..stored.len() - after];
    let counted = &counted[..counted.len() - after];
    if stored.is_empty() && counted.is_empty() {
        return None;
    }
    let mut text = format!("from line {} of its part on:\n", before + 1);
    for (mark, lines) in [('-', stored), ('+', counted)] {
        for line in lines.iter().take(SHOWN) {
            text += &format!("{mark} {line}\n");
        }
        if lines.len() > SHOWN {
            text += &format!("{mark} … {} lines in all\n", lines.len());
        }
    }
    Some(text)
}

/// Holds what a run counted to what is stored.
pub fn check(part: Part, counted: &[String]) -> Result<(), String> {
    let text = fs::read_to_string(FILE).map_err(|error| format!("{FILE}: {error}"))?;
    let missing = || format!("{FILE}: no line {:?}", part.head());
    let stored = lines_of(&text, part).ok_or_else(missing)?;
    let counted: Vec<&str> = counted.iter().map(String::as_str).collect();
    match difference(&stored, &counted) {
        None => Ok(()),
        Some(lines) => Err(format!(
            "{}: stored (-) and counted (+) differ {lines}",
            part.head()
        )),
    }
}

/// Stores what all runs counted.
pub fn write(parts: &[(Part, Vec<String>)]) -> io::Result<()> {
    fs::write(FILE, text_of(parts))
}

#[cfg(test)]
mod tests {
    use super::*;

    const STORED: [&str; 4] = ["fresh 0: 1", "book 0: 2", "stop 0: 3", "round 0: 4"];

    #[test]
    fn equal_counts_have_no_difference() {
        assert_eq!(difference(&STORED, &STORED), None);
        assert_eq!(difference(&[], &[]), None);
    }

    #[test]
    fn a_changed_count_is_shown_with_the_stored_one() {
        let counted = ["fresh 0: 1", "book 0: 9", "stop 0: 3", "round 0: 4"];
        let shown = "from line 2 of its part on:\n- book 0: 2\n+ book 0: 9\n";
        assert_eq!(difference(&STORED, &counted).as_deref(), Some(shown));
    }

    #[test]
    fn a_line_more_or_less_is_shown_alone() {
        let fewer = ["fresh 0: 1", "book 0: 2", "round 0: 4"];
        let less = "from line 3 of its part on:\n- stop 0: 3\n";
        assert_eq!(difference(&STORED, &fewer).as_deref(), Some(less));
        let more = "from line 3 of its part on:\n+ stop 0: 3\n";
        assert_eq!(difference(&fewer, &STORED).as_deref(), Some(more));
    }

    #[test]
    fn equal_lines_at_both_ends_are_met_once() {
        let shown = "from line 2 of its part on:\n+ a\n";
        assert_eq!(difference(&["a"], &["a", "a"]).as_deref(), Some(shown));
    }

    #[test]
    fn a_long_difference_is_cut() {
        let counted: Vec<String> = (0..7).map(|at| format!("line {at}")).collect();
        let counted: Vec<&str> = counted.iter().map(String::as_str).collect();
        let text = difference(&[], &counted).unwrap();
        assert_eq!(text.lines().count(), 1 + SHOWN + 1);
        assert!(text.ends_with("+ line 4\n+ … 7 lines in all\n"));
    }

    #[test]
    fn each_part_is_read_back() {
        let owned = |lines: &[&str]| lines.iter().map(ToString::to_string).collect();
        let text = text_of(&[
            (Part::Ordinary, owned(&STORED)),
            (Part::Faults, owned(&[])),
            (Part::Page, owned(&["a pipe: 5"])),
        ]);
        assert_eq!(lines_of(&text, Part::Ordinary).unwrap(), STORED);
        assert!(lines_of(&text, Part::Faults).unwrap().is_empty());
        assert_eq!(lines_of(&text, Part::Page).unwrap(), ["a pipe: 5"]);
        assert_eq!(lines_of("== compare --page\n", Part::Faults), None);
    }
}
