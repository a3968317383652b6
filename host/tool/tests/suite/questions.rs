//! What can be asked, of the floor at hand and of those on the barge.

use crate::common::{accepted, ceromby, PAIR, PAIR_MADE};

/// The lines after the first few.
fn tail(printed: &str, skipped: usize) -> Vec<&str> {
    printed.lines().skip(skipped).collect()
}

/// A barge of four pairs.
fn barge() -> String {
    let put = |floor| format!("{PAIR}put {floor}\n");
    format!("{}allowance 9\n", (0..4).map(put).collect::<String>())
}

#[test]
fn where_a_canister_is_or_was_delivered() {
    let printed = accepted(&format!(
        "{PAIR}book 0 5 10 20\nwhere 5\nround\nwhere 5\nrounds 9\nwhere 5\nwhere 4\nwhere 6\n"
    ));
    let lines = tail(&printed, 2);
    assert_eq!(lines[0], "where: 5 at (10, 20) on tile 0");
    assert_eq!(lines[2], "where: 5 at (30, 20) on tile 0");
    assert_eq!(lines[5], "where: 5 delivered in round 4 at hopper 1");
    assert_eq!(
        lines[6],
        "where: 4 not on the floor: delivered earlier or never booked"
    );
    assert_eq!(
        lines[7],
        "where: 6 not on the floor: never booked, the last number is 5"
    );
}

/// What a file's floor delivered earlier isn't known; a floor that was given up
/// says nothing about the next one's numbers.
#[test]
fn where_knows_this_run_alone() {
    let printed = accepted(&format!(
        "{PAIR}book 0 5\nrounds 9\nsave x\nload x\nwhere 5\n{PAIR}book 0 7\nwhere 5\n"
    ));
    let unknown = "where: 5 not on the floor: delivered earlier or never booked";
    assert_eq!(printed.lines().filter(|line| *line == unknown).count(), 2);
}

#[test]
fn where_looks_at_the_barge_too() {
    let printed = accepted(&format!(
        "{}on 1 book 0 5\non 2 book 0 5 40 40\non 2 rounds 3\nwhere 5\non 1 where 5\non 0 where 5\n",
        barge()
    ));
    assert!(printed.ends_with(
        "on 2: round 2: delivered 5\n\
         on 2: rounds: 3 done, now at round 3\n\
         where: 5 at (0, 0) on tile 0, floor 1 of the barge\n\
         where: 5 delivered in round 2 at hopper 1, floor 2 of the barge\n\
         on 1: where: 5 at (0, 0) on tile 0\n\
         on 0: where: 5 not on the floor: never booked, the last number is 0\n"
    ));
}

/// A floor that is put on the barge and taken back keeps what it delivered.
#[test]
fn where_follows_a_floor_to_the_barge_and_back() {
    let printed = accepted(&format!(
        "{PAIR}book 0 5\nrounds 4\nput 2\non 2 where 5\ntake 2\nwhere 5\n"
    ));
    assert!(printed.contains("on 2: where: 5 delivered in round 4 at hopper 1\n"));
    assert!(printed.ends_with("\nwhere: 5 delivered in round 4 at hopper 1\n"));
}

#[test]
fn settings_give_the_line_that_makes_the_floor() {
    let made = "fresh 4 1 0,3 1,2 100 30 10 20";
    let printed = accepted(&format!("{made}\nsettings\n"));
    let lines = tail(&printed, 1);
    assert_eq!(
        lines[0],
        "settings: 4 x 1 tiles, hoppers 0, 3, fill tiles 1, 2"
    );
    assert_eq!(lines[3], format!("      made by {made}"));
}

#[test]
fn the_bound_is_the_proved_one_and_says_what_is_left() {
    let bound = |lines: &str| {
        let printed = accepted(&format!("fresh 4 1 0 all 100 30 10 20\n{lines}bound\n"));
        let at = printed.find("bound: ").unwrap();
        printed[at..].to_owned()
    };
    assert_eq!(bound(""), "bound: the floor is empty\n");
    // (C - 1) x (1 + K x M): 3 x (1 + 2 x 4)
    assert_eq!(
        bound("book 1 1\nbook 3 2\n"),
        "bound: 2 canisters delivered within 27 rounds, all\n"
    );
    assert_eq!(
        bound("book 1 1\nbook 2 2\nbook 3 3\nbook 3 4\nstop 2\n"),
        "bound: 1 canister delivered within 15 rounds, 3 canisters left then\n      \
         tile 2: 2: the tile is stopped\n      tile 3: 3, 4: no live path to a hopper\n"
    );
    assert_eq!(
        bound("book 3 1\nstop 2\n"),
        "bound: nothing can be delivered, 1 canister left\n      \
         tile 3: 1: no live path to a hopper\n"
    );
}

#[test]
fn until_empty_ends_with_the_last_delivery_and_says_what_is_left() {
    let printed = accepted(&format!(
        "{PAIR}book 0 5\nbook 0 6 0 40\nuntil empty\nuntil empty\n"
    ));
    assert!(printed.ends_with(
        "round 4: delivered 5 6\n\
         until: 4 rounds done, now at round 4; the floor is empty\n\
         until: 0 rounds done, now at round 4; the floor is empty\n"
    ));
    let printed = accepted(
        "fresh 4 1 0 all 100 30 10 20\nbook 1 1\nbook 2 2\nbook 3 3\nstop 2\nuntil empty\n",
    );
    assert!(
        printed.ends_with(
            "round 1: delivered 1\n\
         until: 1 round done, now at round 1; 2 canisters left\n      \
         tile 2: 2: the tile is stopped\n      tile 3: 3: no live path to a hopper\n"
        ),
        "{printed}"
    );
}

#[test]
fn the_map_has_the_page_and_beside_it_numbers_and_marks() {
    let input = "fresh 3 2 5 0,1 100 30 10 20\nbook 0 1\nrounds 4\nshow\nmap\n";
    let printed = accepted(input);
    let lines: Vec<&str> = printed.lines().collect();
    let page = &lines[4..6];
    let beside = ["  | 1f| 3 | 5H|", "  | 0f| 2 | 4 |"];
    for row in 0..2 {
        assert_eq!(lines[7 + row], format!("{}{}", page[row], beside[row]));
    }
}

#[test]
fn a_floor_on_the_barge_is_asked_as_one_at_hand() {
    let printed = accepted(&format!(
        "{}on 1 book 0 5\non 1 rounds 2\non 1 show\non 1 read 0\non 1 why\non 1 until empty\n\
         on 1 bound\non 1 throughput\non 1 layouts\n",
        barge()
    ));
    assert!(printed.ends_with(
        "on 1: rounds: 2 done, now at round 2\n\
         on 1: show: last 5, booked 1, delivered 0, round 2\n\
         | 1 E  1| 0 -  0|\n\
         on 1: read: tile 0 running, distance 1, arrow E, turn -, 1 canister, 5 at (40, 0)\n\
         on 1: why: in round 2\n      tile 0 moved\n\
         on 1: round 4: delivered 5\n\
         on 1: until: 2 rounds done, now at round 4; the floor is empty\n\
         on 1: bound: the floor is empty\n\
         on 1: throughput: no window closed yet; open window: rounds 4, delivered 1\n\
         on 1: layouts: none\n"
    ));
}

#[test]
fn a_floor_that_the_barge_has_not_is_said() {
    let ran = ceromby(&[], "on 1 show\non 4 show\non 4 rounds 0\nbarge\nwhere 5\n");
    let lines: Vec<&str> = ran.out.lines().collect();
    let none = "on 1: show: the barge hasn't that floor: it has none; put moves one there";
    assert_eq!(lines[0], none);
    assert_eq!(lines[1], "on 4: show: refused 49: floor number not 0 to 3");
    assert_eq!(
        lines[2],
        "on 4: rounds: refused 49: floor number not 0 to 3"
    );
    let no_floor = "where: there is no floor; begin with fresh, load or take";
    assert_eq!(lines.last(), Some(&no_floor));
    assert_eq!(ran.status, Some(1));
}

/// In one call; the first line is as ever, the others are counted.
#[test]
fn windows_that_close_at_the_same_rates_are_said_once() {
    let printed = accepted(&format!("{PAIR}rounds 1100\nbook 0 1\nrounds 1100\n"));
    let expected = "round 256: window closed, rate 0.00000000\n\
                    windows: 3 more closed at the same rate, up to round 1024\n\
                    rounds: 1100 done, now at round 1100\n\
                    book: 1 at (0, 0) on tile 0\n\
                    round 1104: delivered 1\n\
                    round 1280: window closed, rate 0.00390625\n\
                    round 1536: window closed, rate 0.00000000\n\
                    windows: 2 more closed at the same rate, up to round 2048\n\
                    rounds: 1100 done, now at round 2200\n";
    assert_eq!(printed, format!("{PAIR_MADE}{expected}"));
    let printed = accepted("fresh 4 1 0,3 all 100 30 10 20\nrounds 512\n");
    assert!(printed.contains(
        "round 256: window closed at 0, rate 0.00000000\n\
         round 256: window closed at 3, rate 0.00000000\n\
         windows: 1 more closed at each hopper, at the same rates, up to round 512\n"
    ));
}

/// A floor that holds canisters is given up only where the call says so.
#[test]
fn nothing_is_given_up_without_an_exclamation_mark() {
    let input = format!(
        "{PAIR}put 0\n{PAIR}book 0 1\nsave x\n{PAIR}load x\ntake 0\nput! 0\ntake 0\n\
         put 1\n{PAIR}put 1\nput! 1\ntake 1\n"
    );
    let ran = ceromby(&[], input);
    let kept: Vec<&str> = ran
        .out
        .lines()
        .filter(|line| line.contains("gives it up"))
        .collect();
    assert_eq!(
        kept,
        [
            "fresh: the floor holds 1 canister; fresh! gives it up",
            "load: the floor holds 1 canister; load! gives it up",
            "take: the floor holds 1 canister; take! gives it up",
            "put: floor 1 of the barge holds 1 canister; put! gives it up",
        ]
    );
    assert_eq!(ran.status, Some(1));
}
