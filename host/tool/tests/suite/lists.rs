//! Lists of bookings and plans, up to what they may hold and one more.

use crate::common::{accepted, ceromby, last_line, PAIR, PAIR_MADE};

fn entries(count: u32) -> String {
    let lines = (1..=count).map(|number| format!("0 {number} 0 0\n"));
    format!("list\n{}end\n", lines.collect::<String>())
}

#[test]
fn a_list_needs_a_floor() {
    let ran = ceromby(&[], entries(1));
    let expected = "list: there is no floor; begin with fresh, load or take\n";
    assert_eq!((ran.out.as_str(), ran.status), (expected, Some(1)));
}

#[test]
fn a_list_of_64_is_sent_and_each_entry_answered() {
    let ran = ceromby(&[], format!("{PAIR}{}", entries(64)));
    let lines: Vec<&str> = ran.out.lines().collect();
    assert_eq!(lines.len(), 65);
    assert_eq!(lines[1], "list 1: book: 1 at (0, 0) on tile 0");
    let near = "1 at (0, 0) is 0 mm away in a and 0 in b, and one has to be 40 or more";
    for (at, line) in lines.iter().enumerate().skip(2) {
        let refused = format!("list {at}: book: refused 34: too near a canister of the tile");
        assert_eq!(*line, format!("{refused}: {near}"));
    }
    assert_eq!(ran.status, Some(1));
}

#[test]
fn lists_of_65_and_more_are_refused_and_leave_no_booking() {
    for count in [65, 66, 1000] {
        let ran = ceromby(&[], format!("{PAIR}{}show\n", entries(count)));
        let expected = format!(
            "list: refused 42: more than 64 entries: {count} were typed; send them in parts\n\
             show: last 0, booked 0, delivered 0, round 0\n| 0 - --| 0 -  0|\n"
        );
        assert_eq!(ran.out, format!("{PAIR_MADE}{expected}"));
        assert_eq!(ran.status, Some(1));
    }
}

#[test]
fn a_list_without_its_end_is_not_sent() {
    for end in ["", "quit\nlist\n", "exit\n"] {
        let ran = ceromby(&[], format!("{PAIR}list\n0 65 40 0\n{end}"));
        let expected = "list: not sent, there is no end\n";
        assert_eq!(ran.out, format!("{PAIR_MADE}{expected}"));
        assert_eq!(ran.status, Some(2));
    }
}

#[test]
fn a_line_of_a_list_that_cannot_be_read_is_left_out() {
    let ran = ceromby(
        &[],
        format!("{PAIR}LIST\n0 1 0 0\nstop 0\n# x\n0 2 40 0 # y\nEND\n"),
    );
    let expected = "line 4: cannot read: stop 0: stop is no number; \
                    expected: TILE NUMBER A B, or end, list or quit\n\
                    list 1: book: 1 at (0, 0) on tile 0\n\
                    list 2: book: 2 at (40, 0) on tile 0\n";
    assert_eq!(ran.out, format!("{PAIR_MADE}{expected}"));
    assert_eq!(ran.status, Some(2));
}

/// An entry is explained by the floor that the entries before it left.
#[test]
fn a_refused_entry_is_explained_as_it_was_met() {
    let printed = ceromby(
        &[],
        format!("{PAIR}list\n0 5 0 0\n0 5 40 0\n0 6 40 0\nend\n"),
    )
    .out;
    let why = "list 2: book: refused 33: number not above the last booked: 5 isn't above 5\n";
    assert!(printed.contains(why), "{printed}");
}

#[test]
fn a_plan_takes_64_entries_and_ends_with_its_floor() {
    let entries = (1..=64).map(|label| format!("entry {label} 0\n"));
    let mut input: String = entries.collect();
    input += "entry 64 0\noffer\nrelease 1\n";
    input += PAIR;
    input += "entries\n";
    let ran = ceromby(&[], input);
    let waits = (1..=64).map(|label| format!("entry: label {label} on tile 0: waits\n"));
    let mut expected: String = waits.collect();
    expected += "entry: the plan has 64 entries\n\
                 offer: label 1\n\
                 release: there is no floor; begin with fresh, load or take\n";
    expected += PAIR_MADE;
    expected += "plan: no entries, its floor is gone\nentries: none\n";
    assert_eq!((ran.out, ran.status), (expected, Some(1)));
}

#[test]
fn rounds_say_which_labels_they_delivered() {
    let printed = accepted(&format!("{PAIR}entry 1 0\nrelease 1\nrounds 4\nentries\n"));
    assert!(printed.ends_with(
        "round 4: delivered 1\nplan: label 1 delivered\nrounds: 4 done, now at round 4\n\
         entries: label 1 on tile 0: delivered, number 1\n"
    ));
}

#[test]
fn rounds_takes_at_most_100000() {
    assert_eq!(
        last_line(&format!("{PAIR}rounds 100001\n")),
        "rounds: at most 100000"
    );
    let printed = accepted(&format!("{PAIR}rounds 100000\n"));
    assert!(printed.ends_with("rounds: 100000 done, now at round 100000\n"));
}
