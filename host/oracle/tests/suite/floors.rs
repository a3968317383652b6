//! "Well formed" clause by clause, and the random floors.

use crate::common::*;
use crate::naive;
use oracle::random::{self, Rng};
use oracle::{settings_refusal, well_formed, Canister, Floor, Tile, NONE};

/// W 3, H 2, hopper 5; tile 0 holds 4 and 6, tile 2 holds 5, tile 1 stopped.
fn sound() -> Floor {
    let floor = after(&stopped(&made(plain(3, 2, 5)), 1), 6);
    let floor = booked(&floor, 0, 4, 0, 0);
    let floor = booked(&floor, 2, 5, 70, 70);
    booked(&floor, 0, 6, 40, 0)
}

type Change = fn(&mut Floor);

/// A change for each clause of well formed, by itself.
const BROKEN: &[(&str, Change)] = &[
    ("W 0", |f| f.settings.columns = 0),
    ("W 255", |f| f.settings.columns = 255),
    ("other W", |f| f.settings.columns = 4),
    ("lesser W", |f| f.settings.columns = 2),
    ("H 255", |f| f.settings.rows = 255),
    ("hopper beyond", |f| f.settings.hoppers = 1 << 6),
    ("another hopper", |f| f.settings.hoppers |= 1 << 3),
    ("no hopper", |f| f.settings.hoppers = 0),
    ("counter of no hopper", |f| {
        f.counters.delivered[1] = 1;
        f.counters.booked += 1;
    }),
    ("fill beyond", |f| f.settings.sources |= 1 << 6),
    ("fill of hopper", |f| f.settings.sources |= 1 << 5),
    ("v 30", |f| f.settings.travel = 30),
    ("hopper stopped", |f| f.tiles[5].running = 0),
    ("hopper running 2", |f| f.tiles[5].running = 2),
    ("hopper distance", |f| f.tiles[5].distance = 1),
    ("hopper distance none", |f| f.tiles[5].distance = NONE),
    ("hopper arrow", |f| f.tiles[5].next = 1),
    ("hopper turn out", |f| f.tiles[5].token = 4),
    ("hopper canister", |f| {
        f.tiles[5].count = 1;
        f.canisters[80] = canister(1, 0, 0);
        f.counters.delivered[0] = 0;
        f.counters.booked = 4;
    }),
    ("hopper leftover", |f| f.canisters[80].b = 1),
    ("running 2", |f| f.tiles[0].running = 2),
    ("running 7", |f| f.tiles[3].running = 7),
    ("distance 0", |f| f.tiles[3].distance = 0),
    ("distance C", |f| f.tiles[3].distance = 6),
    ("distance 254", |f| f.tiles[3].distance = 254),
    ("none with arrow", |f| f.tiles[3].distance = NONE),
    ("distance without arrow", |f| f.tiles[3].next = 0),
    ("arrow out", |f| f.tiles[3].next = 3),
    ("arrow 5", |f| f.tiles[3].next = 5),
    ("arrow 200", |f| f.tiles[3].next = 200),
    ("turn out", |f| f.tiles[0].token = 1),
    ("turn 5", |f| f.tiles[0].token = 5),
    ("stopped distance", |f| f.tiles[1].distance = 1),
    ("stopped arrow", |f| f.tiles[1].next = 4),
    ("stopped turn", |f| f.tiles[1].token = 4),
    ("stopped way", |f| {
        f.tiles[1].distance = 1;
        f.tiles[1].next = 4;
    }),
    ("stopped zero", |f| f.tiles[1].distance = 0),
    ("count above", |f| f.tiles[2].count = 2),
    ("count below", |f| f.tiles[2].count = 0),
    ("count 17", |f| f.tiles[2].count = 17),
    ("count 255", |f| f.tiles[2].count = 255),
    ("a outside", |f| f.canisters[32].a = 71),
    ("b outside", |f| f.canisters[32].b = 71),
    ("too close", |f| {
        f.canisters[1].a = f.canisters[0].a;
        f.canisters[1].b = f.canisters[0].b + 39;
    }),
    ("number 0", |f| f.canisters[0].number = 0),
    ("falling", |f| {
        f.canisters[0].number = 6;
        f.canisters[1].number = 4;
    }),
    ("level", |f| f.canisters[1].number = 4),
    ("twice", |f| f.canisters[32].number = 4),
    ("above last", |f| f.canisters[32].number = 7),
    ("last below", |f| f.counters.last = 5),
    ("booked above", |f| f.counters.booked += 1),
    ("delivered above", |f| f.counters.delivered[0] += 1),
    ("sum wraps", |f| {
        f.counters.delivered[0] = u32::MAX;
        f.counters.booked = 2;
    }),
    ("booked above last", |f| {
        f.counters.booked = 7;
        f.counters.delivered[0] = 4;
    }),
    ("unused place number", |f| f.canisters[2].number = 9),
    ("unused place a", |f| f.canisters[15].a = 1),
    ("unused tile running", |f| f.tiles[6].running = 1),
    ("unused tile distance", |f| f.tiles[63].distance = NONE),
    ("unused tile arrow", |f| f.tiles[7].next = 1),
    ("unused tile turn", |f| f.tiles[7].token = 1),
    ("unused tile count", |f| f.tiles[7].count = 1),
    ("unused tile place", |f| f.canisters[1023].b = 1),
];

#[test]
fn each_clause_counts() {
    assert!(well_formed(&sound()));
    assert_eq!(sound().tiles[0].distance, 3);
    assert_eq!(sound().tiles[3].next, 4);
    for (name, change) in BROKEN {
        let mut floor = sound();
        change(&mut floor);
        assert!(!well_formed(&floor), "{name}");
        assert!(!naive::well_formed(&floor), "{name}");
    }
}

#[test]
fn these_are_allowed() {
    type Change = fn(&mut Floor);
    let allowed: &[(&str, Change)] = &[
        ("stale distance", |f| f.tiles[3].distance = 5),
        ("arrow to a stopped tile", |f| f.tiles[0].next = 3),
        ("turn to a stopped tile", |f| f.tiles[0].token = 3),
        ("turn of the hopper", |f| f.tiles[5].token = 1),
        ("no fill set", |f| f.settings.sources = 0),
        ("greatest last", |f| f.counters.last = u32::MAX),
        ("greatest counters", |f| {
            f.counters.last = u32::MAX;
            f.counters.booked = u32::MAX;
            f.counters.delivered[0] = u32::MAX - 3;
        }),
        ("canister on a stopped tile", |f| {
            f.tiles[2] = Tile {
                running: 0,
                distance: NONE,
                next: 0,
                token: 0,
                ..f.tiles[2]
            }
        }),
    ];
    for (name, change) in allowed {
        let mut floor = sound();
        change(&mut floor);
        assert!(well_formed(&floor), "{name}");
        assert!(naive::well_formed(&floor), "{name}");
    }
}

#[test]
fn random_settings_pass() {
    let mut rng = Rng::new(10);
    let (mut two, mut most, mut tall, mut wide, mut least, mut great) = (0, 0, 0, 0, 0, 0);
    for _ in 0..20_000 {
        let s = random::settings(&mut rng);
        assert_eq!(settings_refusal(&s), 0, "{s:?}");
        two += usize::from(s.tile_count() == 2);
        most += usize::from(s.tile_count() == 64);
        tall += usize::from(s.columns == 1);
        wide += usize::from(s.rows == 1);
        least += usize::from((s.width, s.length, s.gap, s.travel) == (3, 2, 0, 1));
        great += usize::from(s.width == 60_000);
    }
    for seen in [two, most, tall, wide, least, great] {
        assert!(seen > 100);
    }
}

#[test]
fn random_floors_are_well_formed() {
    let (mut crowded, mut stale, mut halted, mut greatest) = (0, 0, 0, 0);
    for seed in 0..10_000 {
        let mut rng = Rng::new(seed);
        let floor = random::floor(&mut rng);
        assert!(well_formed(&floor), "{seed}");
        let tiles = floor.settings.tile_count();
        let used = &floor.tiles[..tiles];
        crowded += usize::from(used.iter().any(|tile| tile.count == 16));
        halted += usize::from(used.iter().any(|tile| tile.running == 0 && tile.count > 0));
        stale += usize::from(oracle::round(&floor).floor.tiles != floor.tiles);
        greatest += usize::from(floor.counters.last == u32::MAX);
    }
    for seen in [crowded, stale, halted, greatest] {
        assert!(seen > 300, "{crowded} {stale} {halted} {greatest}");
    }
}

#[test]
fn both_checks_agree() {
    let mut rng = Rng::new(11);
    let (mut sound, mut broken) = (0, 0);
    for _ in 0..30_000 {
        let floor = random::nearly_sound_floor(&mut rng);
        let fits = well_formed(&floor);
        assert_eq!(fits, naive::well_formed(&floor));
        if fits {
            sound += 1;
        } else {
            broken += 1;
        }
    }
    assert!(sound > 3_000 && broken > 3_000, "{sound} {broken}");
}

#[test]
fn the_zero_floor_is_malformed() {
    assert!(!well_formed(&Floor::ZERO));
    assert_eq!(Floor::ZERO.canisters[5], Canister::ZERO);
}
