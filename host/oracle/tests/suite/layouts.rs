//! Keeping, forgetting and recalling layouts.

use crate::common::*;
use crate::naive;
use oracle::random::{self, Call, Rng};
use oracle::{
    forget, keep, name, recall, repair, stop, well_formed, Answer, Floor, Layout, Settings,
};

fn names(floor: &Floor) -> Vec<String> {
    let used = floor.layouts.iter().filter(|layout| layout.name != 0);
    let letters = |layout: &Layout| {
        let bytes = layout.name.to_be_bytes();
        let end = bytes.iter().position(|byte| *byte == 0).unwrap_or(8);
        String::from_utf8(bytes[..end].to_vec()).unwrap()
    };
    used.map(letters).collect()
}

fn sets(floor: &Floor) -> Vec<u64> {
    let used = floor.layouts.iter().filter(|layout| layout.name != 0);
    used.map(|layout| layout.set).collect()
}

/// The answers of keeping, forgetting and recalling; refused ones give the same floor.
fn answers(floor: &Floor, letters: [u8; 8]) -> [u8; 3] {
    let number = |answer: Answer| {
        assert!(answer.refusal == 0 || answer.floor == *floor);
        answer.refusal
    };
    [
        number(keep(floor, letters)),
        number(forget(floor, letters)),
        number(recall(floor, letters)),
    ]
}

#[test]
fn a_name_in_memory() {
    let floor = kept(&line(3, 2), "AB");
    let layout = Layout {
        name: 0x4142_0000_0000_0000,
        set: 0b111,
    };
    assert_eq!(floor.layouts[0], layout);
    assert_eq!(floor.layouts[1..], [Layout::ZERO; 7]);
    assert_eq!(&layout.letters(), b"AB\0\0\0\0\0\0");
    assert_eq!(line(3, 2).layouts, [Layout::ZERO; 8]);
}

#[test]
fn one_to_eight_letters() {
    let floor = line(2, 1);
    for good in ["A", "Z", "NETS", "ABCDEFG", "ABCDEFGH", "ZZZZZZZZ"] {
        let floor = kept(&floor, good);
        assert_eq!(names(&floor), [good]);
        assert_eq!(answers(&floor, name(good)), [0, 0, 0]);
    }
    let bad = [
        *b"\0\0\0\0\0\0\0\0",
        *b"a\0\0\0\0\0\0\0",
        *b"NETs\0\0\0\0",
        *b"A\0B\0\0\0\0\0",
        *b"A\0\0\0\0\0\0B",
        *b"\0A\0\0\0\0\0\0",
        *b"AB D\0\0\0\0",
        *b"ABCDEFG1",
        *b"@\0\0\0\0\0\0\0",
        *b"[\0\0\0\0\0\0\0",
        [0xc3, 0x84, 0, 0, 0, 0, 0, 0],
        [255; 8],
        [1, 0, 0, 0, 0, 0, 0, 0],
    ];
    for letters in bad {
        assert_eq!(answers(&floor, letters), [44; 3], "{letters:?}");
    }
}

#[test]
fn a_name_from_text() {
    assert_eq!(&name("NETS"), b"NETS\0\0\0\0");
    assert_eq!(&name("ABCDEFGH"), b"ABCDEFGH");
    for bad in [
        "",
        "ABCDEFGHI",
        "ABCDEFGHIJKLMNOPQ",
        "nets",
        "A B",
        "A\0",
        "Ä",
    ] {
        assert_eq!(name(bad), [0; 8], "{bad}");
        assert_eq!(answers(&line(2, 1), name(bad)), [44; 3], "{bad}");
    }
}

/// Eight layouts, B to I.
fn eight() -> Floor {
    let names = ["F", "B", "I", "C", "E", "D", "H", "G"];
    let floor = names
        .iter()
        .fold(line(4, 3), |floor, name| kept(&floor, name));
    assert_eq!(naive_names(&floor), "BCDEFGHI");
    floor
}

fn naive_names(floor: &Floor) -> String {
    names(floor).concat()
}

#[test]
fn the_orders() {
    let bad = malformed();
    let unused = name("A");
    assert_eq!(answers(&bad, [0; 8]), [30; 3]);
    assert_eq!(answers(&bad, unused), [30; 3]);
    assert_eq!(answers(&Floor::ZERO, unused), [30; 3]);
    let floor = line(4, 3);
    assert_eq!(answers(&floor, [0; 8]), [44; 3]);
    assert_eq!(answers(&floor, unused), [0, 45, 45]);
    let full = eight();
    assert_eq!(answers(&full, [0; 8]), [44; 3]);
    assert_eq!(answers(&full, unused), [46, 45, 45]);
    assert_eq!(answers(&full, name("J")), [46, 45, 45]);
    assert_eq!(answers(&full, name("BB")), [46, 45, 45]);
    assert_eq!(answers(&full, name("E")), [0, 0, 0]);
}

#[test]
fn keeping_under_a_held_name_replaces_it() {
    let full = eight();
    assert_eq!(sets(&full), [0b1111; 8]);
    let floor = kept(&stopped(&full, 1), "E");
    let mut expected = stopped(&full, 1);
    expected.layouts[3].set = 0b1101;
    assert_eq!(floor, expected);
    let few = kept(&stopped(&kept(&line(4, 3), "NETS"), 0), "NETS");
    assert_eq!(
        (names(&few), sets(&few)),
        (vec!["NETS".into()], vec![0b1110])
    );
}

#[test]
fn rising_names() {
    let names_in = ["NETS", "Z", "NET", "A", "NETSOUTH", "AA", "NETT"];
    let floor = names_in
        .iter()
        .fold(line(2, 1), |floor, name| kept(&floor, name));
    let rising = ["A", "AA", "NET", "NETS", "NETSOUTH", "NETT", "Z"];
    assert_eq!(names(&floor), rising);
    assert!(floor
        .layouts
        .windows(2)
        .take(6)
        .all(|two| two[0].name < two[1].name));
}

#[test]
fn forgetting_frees_the_place() {
    let full = eight();
    for (gone, left) in [("B", "CDEFGHI"), ("E", "BCDFGHI"), ("I", "BCDEFGH")] {
        let floor = forgotten(&full, gone);
        assert_eq!(naive_names(&floor), left);
        assert_eq!(floor.layouts[7], Layout::ZERO);
        assert_eq!(answers(&floor, name(gone)), [0, 45, 45]);
        assert_eq!(kept(&floor, gone), full);
        let other = Floor {
            layouts: full.layouts,
            ..floor
        };
        assert_eq!(other, full);
    }
    let none = forgotten(&kept(&line(2, 1), "A"), "A");
    assert_eq!(none, line(2, 1));
}

/// W 4, hopper 3, two canisters and some rounds.
fn busy() -> Floor {
    let floor = booked(&line(4, 3), 0, 1, 0, 0);
    after(&booked(&floor, 1, 2, 0, 40), 3)
}

#[test]
fn a_recall_that_changes_nothing() {
    let floor = kept(&busy(), "ALL");
    assert_eq!(recalled(&floor, "ALL"), floor);
    let halted = kept(&stopped(&floor, 1), "SOME");
    assert_eq!(recalled(&halted, "SOME"), halted);
}

#[test]
fn a_recall_stops_and_repairs() {
    let all = kept(&busy(), "ALL");
    let some = kept(&stopped(&stopped(&all, 0), 1), "SOME");
    // Repairs alone: the tiles run, without a way yet.
    let floor = recalled(&some, "ALL");
    assert_eq!(floor, repaired(&repaired(&some, 0), 1));
    // Stops alone.
    let later = after(&floor, 4);
    assert_eq!(recalled(&later, "SOME"), stopped(&stopped(&later, 0), 1));
    // Both: tile 0 is repaired, tile 2 stopped, tiles 1 and 3 stay as they are.
    let other = kept(&stopped(&after(&repaired(&some, 0), 2), 2), "OTHER");
    assert_eq!(sets(&other), [0b1111, 0b1001, 0b1100]);
    let changed = recalled(&repaired(&stopped(&other, 0), 2), "OTHER");
    let single = stopped(&repaired(&repaired(&stopped(&other, 0), 2), 0), 2);
    assert_eq!(changed, single);
    assert_eq!(changed.tiles[3], other.tiles[3]);
}

#[test]
fn canisters_and_counters_never_go_back() {
    let floor = kept(&busy(), "ALL");
    let later = after(&stopped(&floor, 1), 6);
    let later = booked(&later, 0, 9, 35, 70);
    let floor = recalled(&later, "ALL");
    assert_eq!(floor.counters, later.counters);
    assert_eq!(floor.canisters, later.canisters);
    assert_eq!(floor.layouts, later.layouts);
}

#[test]
fn a_tile_that_runs_keeps_its_way() {
    let floor = kept(&after(&line(4, 3), 4), "ALL");
    assert_eq!(floor.tiles[0].distance, 3);
    let back = recalled(&stopped(&floor, 2), "ALL");
    // Tile 2 is new, the others still have the ways that they had.
    assert_eq!(back.tiles[0], floor.tiles[0]);
    assert_eq!(back.tiles[1], floor.tiles[1]);
    assert_eq!((back.tiles[2].distance, back.tiles[2].next), (255, 0));
}

#[test]
fn several_hoppers_run_in_every_layout() {
    let floor = made(with_hoppers(4, 1, &[0, 3]));
    let floor = kept(&stopped(&stopped(&floor, 1), 2), "NONE");
    assert_eq!(sets(&floor), [0b1001]);
    let with = |set| {
        let mut floor = floor;
        floor.layouts[0].set = set;
        assert_eq!(well_formed(&floor), naive::well_formed(&floor));
        well_formed(&floor)
    };
    assert!(with(0b1001) && with(0b1111));
    assert!(!with(0b1000) && !with(0b0001) && !with(0b0110) && !with(0));
    assert!(!with(0b1_1001) && !with(1 << 63 | 0b1001));
}

#[test]
fn other_calls_keep_the_layouts() {
    let floor = kept(&stopped(&kept(&line(4, 3), "ALL"), 0), "SOME");
    for after in [
        turned(&floor).floor,
        booked(&floor, 1, 4, 0, 0),
        stopped(&floor, 1),
        repaired(&floor, 0),
    ] {
        assert_eq!(after.layouts, floor.layouts);
    }
}

type Change = fn(&mut Floor);

const BROKEN: &[(&str, Change)] = &[
    ("empty name", |f| f.layouts[0].name = 0),
    ("lower case", |f| f.layouts[0].name |= 0x20 << 56),
    ("letter after the filling", |f| f.layouts[0].name |= 0x41),
    ("zero first", |f| f.layouts[0].name >>= 8),
    ("unsorted", |f| f.layouts.swap(0, 1)),
    ("repeated", |f| f.layouts[1].name = f.layouts[0].name),
    ("the same twice", |f| f.layouts[1] = f.layouts[0]),
    ("hopper stopped", |f| f.layouts[1].set = 0b0111),
    ("no tile", |f| f.layouts[1].set |= 0b1_0000),
    ("last bit", |f| f.layouts[2].set |= 1 << 63),
    ("hole", |f| f.layouts[1] = Layout::ZERO),
    ("hole in front", |f| f.layouts[0] = Layout::ZERO),
    ("set without a name", |f| f.layouts[3].set = 0b1000),
    ("name without a set", |f| f.layouts[3].name = 0x5a << 56),
    ("far place", |f| f.layouts[7] = f.layouts[2]),
];

#[test]
fn each_clause_counts() {
    let floor = kept(&kept(&kept(&line(4, 3), "A"), "BCD"), "NETS");
    assert!(naive::well_formed(&floor));
    for (text, change) in BROKEN {
        let mut broken = floor;
        change(&mut broken);
        assert!(!well_formed(&broken), "{text}");
        assert!(!naive::well_formed(&broken), "{text}");
        assert_eq!(answers(&broken, name("A")), [30; 3], "{text}");
        assert_eq!(stop(&broken, 0).refusal, 30);
    }
}

/// Single stops and repairs in rising tile number.
fn singly(floor: &Floor, set: u64) -> Floor {
    let mut after = *floor;
    for tile in 0..floor.settings.tile_count() as u32 {
        let runs = floor.tiles[tile as usize].running == 1;
        let answer = match (runs, set >> tile & 1) {
            (true, 0) => stop(&after, tile),
            (false, 1) => repair(&after, tile),
            _ => continue,
        };
        assert_eq!(answer.refusal, 0);
        after = answer.floor;
    }
    after
}

#[test]
fn recall_on_random_floors() {
    let mut rng = Rng::new(80);
    let mut seen = [0; 4];
    for _ in 0..4_000 {
        let floor = random::floor(&mut rng);
        assert!(naive::well_formed(&floor));
        for layout in floor.layouts.iter().filter(|layout| layout.name != 0) {
            let answer = recall(&floor, layout.letters());
            assert_eq!(
                (answer.refusal, answer.floor),
                (0, singly(&floor, layout.set))
            );
            let changed = |from, to| {
                let tiles = 0..floor.settings.tile_count();
                let runs = |floor: &Floor, tile: usize| floor.tiles[tile].running;
                let turns = |tile| runs(&floor, tile) == from && runs(&answer.floor, tile) == to;
                usize::from(tiles.into_iter().any(turns))
            };
            seen[2 * changed(1, 0) + changed(0, 1)] += 1;
        }
    }
    assert!(seen.iter().all(|count| *count > 300), "{seen:?}");
}

#[test]
fn still_calls_change_no_tile() {
    let mut rng = Rng::new(81);
    let mut recalls = 0;
    for _ in 0..4_000 {
        let floor = random::floor(&mut rng);
        let call = random::still_call(&mut rng, &floor);
        let (refusal, after, _) = crate::lists::perform(call, &floor);
        assert_eq!(
            after,
            Floor {
                layouts: after.layouts,
                ..floor
            }
        );
        recalls += u32::from(refusal == 0 && matches!(call, Call::Recall { .. }));
    }
    assert!(recalls > 300, "{recalls}");
}

#[test]
fn a_full_floor_has_a_bit_for_each_tile() {
    let settings = Settings {
        sources: 0,
        ..plain(8, 8, 63)
    };
    let floor = kept(&stopped(&made(settings), 0), "ALL");
    assert_eq!(sets(&floor), [u64::MAX - 1]);
    assert_eq!(recalled(&repaired(&floor, 0), "ALL"), floor);
}
