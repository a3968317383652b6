//! What is said of a refusal beyond its words.

use crate::common::{ceromby, last_line, PAIR};

/// The explanation of the last line's refusal.
fn why(number: u8, words: &str, input: &str) -> String {
    let line = last_line(input);
    let (_, refused) = line
        .split_once("refused ")
        .unwrap_or_else(|| panic!("{line}"));
    let rest = refused.strip_prefix(&format!("{number}: {words}"));
    let rest = rest.unwrap_or_else(|| panic!("{line}"));
    rest.strip_prefix(": ").unwrap_or_default().to_owned()
}

#[test]
fn grid_which_of_w_h_and_c() {
    let why = |line| why(1, "W or H outside 1 to 8, or a single tile", line);
    assert_eq!(why("fresh 9 1 1 all 100 30 10 20"), "W is 9");
    assert_eq!(why("fresh 2 0 1 all 100 30 10 20"), "H is 0");
    assert_eq!(
        why("fresh 300 70000 1 all 100 30 10 20"),
        "W is 255 or more, H is 255 or more"
    );
    let one = "C = W x H is 1, and has to be at least 2";
    assert_eq!(why("fresh 1 1 0 none 100 30 10 20"), one);
}

#[test]
fn sets_which_set_and_tile() {
    let words =
        "not one to four hoppers, all on the floor, or a fill tile that is a hopper or no tile";
    let why = |line| why(2, words, line);
    assert_eq!(
        why("fresh 2 1 2 none 100 30 10 20"),
        "hopper 2 is no tile; the floor has 0 to 1"
    );
    assert_eq!(
        why("fresh 8 1 0,1,2,3,4 none 100 30 10 20"),
        "5 hoppers: 0, 1, 2, 3, 4"
    );
    assert_eq!(
        why("fresh 2 1 1 0,1 100 30 10 20"),
        "fill tile 1 is a hopper"
    );
    assert_eq!(
        why("fresh 2 1 1 0,9 100 30 10 20"),
        "fill tile 9 is no tile; the floor has 0 to 1"
    );
}

#[test]
fn measures_which_one_and_by_how_much() {
    let why = |measures: &str| {
        why(
            3,
            "a measure breaks the rules",
            &format!("fresh 2 1 1 all {measures}"),
        )
    };
    assert_eq!(why("100 30 10 30"), "v must be below l: 30 is 1 too much");
    assert_eq!(why("100 30 10 45"), "v must be below l: 45 is 16 too much");
    assert_eq!(why("100 30 10 0"), "v is 0, and has to be at least 1");
    assert_eq!(
        why("100 30 70 20"),
        "l + r must be below U: 100 is 1 too much"
    );
    assert_eq!(
        why("100 20 0 10"),
        "(U - l) div (l + r) must be at most 3: 80 div 20 is 4"
    );
    assert_eq!(
        why("60001 20000 0 10"),
        "U is 60001, and has to be 2 to 60000"
    );
    assert_eq!(
        why("99999 30000 0 10"),
        "U is 65535 or more, and has to be 2 to 60000"
    );
    assert_eq!(
        why("0 0 0 0"),
        "U is 0, and has to be 2 to 60000; v is 0, and has to be at least 1; \
         v must be below l: 0 is 1 too much; l + r must be below U: 0 is 1 too much"
    );
}

/// Every floor of small measures that is refused by 3 is explained, and only by
/// rules that it breaks.
#[test]
fn a_refused_measure_is_always_explained() {
    let numbers = [0u32, 1, 2, 3, 5, 9, 30, 60_000, 60_001, 65_535];
    let mut input = String::new();
    for u in numbers {
        for l in numbers {
            for r in numbers {
                for v in numbers {
                    input += &format!("fresh 2 1 1 none {u} {l} {r} {v}\n");
                }
            }
        }
    }
    let printed = ceromby(&[], input).out;
    assert_eq!(printed.lines().count(), numbers.len().pow(4));
    for line in printed.lines() {
        let explained = line.strip_prefix("fresh: refused 3: a measure breaks the rules: ");
        let accepted = line == "fresh: 2 x 1 tiles, hopper 1";
        assert!(
            accepted || explained.is_some_and(|why| !why.is_empty()),
            "{line}"
        );
    }
}

#[test]
fn a_booking_which_tile_number_and_canister() {
    let pair = |lines: &str| format!("{PAIR}{lines}");
    let refused = |number, words, lines: &str| why(number, words, &pair(lines));
    assert_eq!(
        refused(4, "tile not on the floor", "book 2 1"),
        "the floor has 0 to 1"
    );
    assert_eq!(refused(5, "not a fill tile", "book 1 1"), "fill tiles: 0");
    assert_eq!(
        refused(6, "canister number 0", "book 0 0"),
        "the lowest is 1"
    );
    let outside = |line| refused(7, "a or b above U - l", line);
    assert_eq!(outside("book 0 1 71 0"), "a is 71, at most 70");
    assert_eq!(
        outside("book 0 1 0 70000"),
        "b is 65535 or more, at most 70"
    );
    assert_eq!(outside("book 0 1 99 99"), "a is 99, b is 99, at most 70");
    let stopped = refused(31, "the tile is stopped", "stop 0\nbook 0 1");
    assert_eq!(stopped, "repair 0 sets it running");
    let used = refused(33, "number not above the last booked", "book 0 7\nbook 0 6");
    assert_eq!(used, "6 isn't above 7");
    let near = "book 0 5 0 0\nbook 0 6 60 0\nbook 0 7 39 39";
    assert_eq!(
        refused(34, "too near a canister of the tile", near),
        "5 at (0, 0) is 39 mm away in a and 39 in b, and one has to be 40 or more"
    );
    let full = "book 0 1\nbook 0 2\nbook 0 3\nbook 0 4\nbook 0 5";
    assert_eq!(
        refused(40, "no place on the tile", full),
        "tile 0 has 4 canisters, and only a round makes room"
    );
    let none = why(
        5,
        "not a fill tile",
        "fresh 2 1 1 none 100 30 10 20\nbook 0 1",
    );
    assert_eq!(none, "the floor has no fill tiles");
}

#[test]
fn stops_repairs_and_readings_which_tiles_there_are() {
    for call in ["stop", "repair", "read"] {
        let input = format!("{PAIR}{call} 2");
        assert_eq!(
            why(4, "tile not on the floor", &input),
            "the floor has 0 to 1"
        );
    }
}

#[test]
fn layouts_which_names_are_held() {
    let words = "no layout has that name";
    assert_eq!(why(45, words, &format!("{PAIR}recall A")), "none is held");
    let input = format!("{PAIR}keep B\nkeep A\nforget C");
    assert_eq!(why(45, words, &input), "held are A, B");
    let words = "not a name of 1 to 8 letters A to Z";
    let name = |call: &str| why(44, words, &format!("{PAIR}{call}"));
    assert_eq!(name("keep NETs"), "s isn't A to Z");
    assert_eq!(name("recall A1"), "1 isn't A to Z");
    assert_eq!(name("forget ABCDEFGHI"), "it has more than 8, or none");
    let many: String = ('A'..='I').map(|name| format!("keep {name}\n")).collect();
    let full = why(46, "eight other names are held", &format!("{PAIR}{many}"));
    assert_eq!(full, "A, B, C, D, E, F, G, H");
}

#[test]
fn a_plan_which_label() {
    let words =
        "the label is there already or not 1 to 64, or one to come before it is absent or not lower";
    let entry = |lines: &str| why(47, words, lines);
    assert_eq!(entry("entry 1 0\nentry 1 0"), "label 1 is there already");
    assert_eq!(entry("entry 0 0"), "the label is 0");
    assert_eq!(entry("entry 999 0"), "the label is 255 or more");
    assert_eq!(entry("entry 2 0 3"), "3 isn't lower than 2");
    assert_eq!(entry("entry 3 0 2"), "the plan has no label 2 yet");
    let words = "no such label waits, or one before it isn't delivered";
    let release = |lines: &str| why(48, words, &format!("{PAIR}{lines}"));
    assert_eq!(release("release 3"), "the plan has no label 3");
    assert_eq!(
        release("entry 1 0\nrelease 1\nrelease 1"),
        "label 1 is booked, number 1"
    );
    assert_eq!(
        release("entry 1 0\nrelease 1\nrounds 9\nrelease 1"),
        "label 1 is delivered already"
    );
    assert_eq!(
        release("entry 1 0\nentry 2 0 1\nrelease 2"),
        "label 2 waits for label 1"
    );
    let tile = why(
        4,
        "tile not on the floor",
        &format!("{PAIR}entry 1 7\nrelease 1"),
    );
    assert_eq!(tile, "the floor has 0 to 1");
}

#[test]
fn a_barge_what_it_lacks() {
    let put = |floor| format!("{PAIR}put {floor}\n");
    let words = "the allowance isn't 1 to 4032, or a floor isn't there";
    let lacking = format!("{}allowance 1\n{}on 0 round", put(0), put(2));
    assert_eq!(why(30, words, &lacking), "no floor 1, 3");
    let whole: String = (0..4).map(put).collect();
    assert_eq!(
        why(30, words, &format!("{whole}on 0 round")),
        "the allowance is 0"
    );
    let nothing = why(30, words, "on 0 round");
    assert_eq!(nothing, "the allowance is 0; no floor 0, 1, 2, 3");
    let used = format!("{whole}allowance 1\non 0 book 0 1\non 1 book 0 1");
    assert_eq!(
        why(50, "the allowance is used up", &used),
        "1 aboard, 1 allowed"
    );
    let there = last_line(&format!("{}take 1", put(0)));
    assert_eq!(there, "take: the barge hasn't that floor: it has 0");
    let read = format!("{whole}on 2 read 9");
    assert_eq!(
        why(4, "tile not on the floor", &read),
        "the floor has 0 to 1"
    );
}
