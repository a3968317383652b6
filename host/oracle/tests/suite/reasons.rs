//! Why a tile stood.

use crate::common::*;
use crate::naive::beside;
use oracle::random::{self, Rng};
use oracle::{round, Floor, Report, RoundAnswer, Settings};

/// Reasons and missing millimetres of a round, for the tiles of the floor.
fn reasons(floor: &Floor) -> (Vec<u8>, Vec<u16>) {
    let report = turned(floor).report;
    let tiles = floor.settings.tile_count();
    assert_eq!(report.reasons[tiles..], [0; 64][tiles..]);
    assert_eq!(report.missing[tiles..], [0; 64][tiles..]);
    (
        report.reasons[..tiles].to_vec(),
        report.missing[..tiles].to_vec(),
    )
}

/// A settled floor, a tile that asks and the tile asked, for each side of the latter.
fn asked(side: u8) -> (Floor, u32, u32) {
    let (settings, behind, at) = match side {
        1 => (plain(4, 1, 2), 0, 1),
        2 => (plain(1, 3, 2), 0, 1),
        3 => (plain(1, 3, 0), 2, 1),
        _ => (plain(4, 1, 1), 3, 2),
    };
    (after(&made(settings), 3), behind, at)
}

#[test]
fn the_millimetres_on_each_side() {
    for side in 1..=4 {
        let places = match side {
            1 | 2 => [(70, 0), (40, 0), (39, 1), (20, 20), (1, 39), (0, 40)],
            _ => [(0, 0), (30, 0), (31, 1), (50, 20), (69, 39), (70, 40)],
        };
        for (along, missing) in places {
            let (floor, behind, at) = asked(side);
            let (a, b) = if [1, 4].contains(&side) {
                (along, 7)
            } else {
                (7, along)
            };
            let floor = booked(&floor, behind, 1, 35, 35);
            let floor = booked(&floor, at, 2, a, b);
            let (reasons, lacks) = reasons(&floor);
            let due = if missing == 0 { 6 } else { 5 };
            let found = (reasons[behind as usize], lacks[behind as usize]);
            assert_eq!(found, (due, missing), "{side} {along}");
            assert_eq!((reasons[at as usize], lacks[at as usize]), (6, 0));
        }
    }
}

#[test]
fn the_worst_canister_counts() {
    // In the order of numbers the worst stands first, in the middle and last.
    let (floor, _, _) = asked(1);
    let floor = booked(&floor, 0, 1, 0, 0);
    let places = [(5, 0), (39, 40), (60, 0)];
    for turn in 0..3 {
        let mut floor = floor;
        for at in 0..3 {
            let (a, b) = places[(at + turn) % 3];
            floor = booked(&floor, 1, at as u32 + 2, a, b);
        }
        let (reasons, lacks) = reasons(&floor);
        assert_eq!((reasons[0], lacks[0]), (5, 35));
    }
    let (floor, _, _) = asked(3);
    let floor = booked(&floor, 2, 1, 0, 0);
    let floor = booked(&floor, 1, 2, 0, 33);
    let floor = booked(&floor, 1, 3, 60, 62);
    assert_eq!(reasons(&floor).1[2], 32);
}

#[test]
fn the_greatest_measures() {
    let settings = Settings {
        width: 60_000,
        length: 2,
        gap: 59_997,
        travel: 1,
        ..plain(4, 1, 2)
    };
    let floor = booked(&after(&made(settings), 3), 0, 1, 0, 0);
    let near = booked(&floor, 1, 2, 0, 0);
    assert_eq!(reasons(&near).1[0], 59_999);
    // No place leaves a gap, but a tile without canisters does.
    let far = booked(&floor, 1, 2, 59_998, 0);
    assert_eq!(reasons(&far).1[0], 1);
    assert_eq!(reasons(&floor).0, [6, 2, 2, 2]);
}

/// W 3, H 2, hopper 2: tiles 1 and 5 lead to tile 3 between them, which holds
/// one canister and leads to the hopper.
fn junction(a: u16) -> Floor {
    let floor = stopped(&stopped(&made(plain(3, 2, 2)), 0), 4);
    let mut floor = after(&floor, 4);
    for (number, tile, a) in [(1, 1, 0), (2, 5, 0), (3, 3, a)] {
        floor = booked(&floor, tile, number, a, 70);
    }
    floor
}

#[test]
fn four_before_five() {
    // Both sides lack five millimetres, and the turn is west's.
    let floor = junction(35);
    let found = reasons(&floor);
    assert_eq!(found, (vec![1, 5, 2, 6, 1, 4], vec![0, 5, 0, 0, 0, 0]));
    assert_eq!(turned(&floor).report.grants[3], 0);
    let mut floor = floor;
    floor.tiles[3].token = 4;
    let found = reasons(&floor);
    assert_eq!(found, (vec![1, 4, 2, 6, 1, 5], vec![0, 0, 0, 0, 0, 5]));
    // The east has a gap, but it isn't its turn.
    let (found, lacks) = reasons(&junction(30));
    assert_eq!((found[1], lacks[1], found[5], lacks[5]), (5, 10, 4, 0));
}

#[test]
fn by_the_turn_before_it_passes_on() {
    let floor = booked(&line(3, 1), 0, 1, 0, 0);
    let floor = booked(&floor, 2, 2, 0, 0);
    let first = turned(&floor);
    assert_eq!(first.report.reasons[..3], [6, 2, 4]);
    // It has passed on to the east.
    assert_eq!(first.floor.tiles[1].token, 4);
    let second = turned(&first.floor);
    assert_eq!(second.report.reasons[..3], [4, 2, 6]);
    assert_eq!(second.floor.tiles[1].token, 1);
    // A stored turn that no longer wants doesn't count: the one settled on does.
    let mut alone = booked(&line(3, 1), 2, 2, 0, 0);
    alone.tiles[1].token = 1;
    assert_eq!(reasons(&alone).0, [2, 2, 6]);
}

#[test]
fn stopped_comes_first() {
    let floor = booked(&line(4, 3), 1, 1, 0, 0);
    let floor = stopped(&stopped(&floor, 1), 2);
    assert_eq!(reasons(&floor).0, [2, 1, 1, 2]);
}

#[test]
fn empty_when_the_round_began() {
    // Tile 0 gives its only canister to tile 1, which was empty.
    let floor = booked(&after(&line(3, 2), 2), 0, 1, 70, 0);
    let answer = turned(&floor);
    assert_eq!(answer.floor.members(1), [canister(1, 0, 0)]);
    assert_eq!(answer.report.reasons[..3], [6, 2, 2]);
    // A hopper that takes something in is empty all the same.
    let floor = booked(&line(2, 1), 0, 1, 60, 0);
    let answer = turned(&floor);
    assert_eq!(answer.report.at(0), [1]);
    assert_eq!(answer.report.reasons[..2], [6, 2]);
}

#[test]
fn no_arrow_after_route() {
    // Tile 2 gets its arrow in this round, tile 0 has none yet.
    let floor = booked(&booked(&line(4, 3), 0, 1, 0, 0), 2, 2, 0, 0);
    assert_eq!(reasons(&floor).0, [3, 2, 6, 2]);
    // Tile 2 loses its arrow in this round.
    let floor = booked(&after(&line(4, 0), 3), 2, 1, 0, 0);
    assert_eq!(reasons(&stopped(&floor, 1)).0, [2, 1, 3, 2]);
}

#[test]
fn hoppers_are_empty() {
    let floor = made(with_hoppers(2, 2, &[0, 1, 2, 3]));
    assert_eq!(reasons(&floor).0, [2; 4]);
    let floor = booked(&made(with_hoppers(3, 1, &[0, 2])), 1, 1, 0, 0);
    assert_eq!(reasons(&floor).0, [2, 6, 2]);
}

#[test]
fn a_refused_round_has_none() {
    let report = round(&malformed()).report;
    assert_eq!(report, Report::ZERO);
    assert_eq!((report.reasons, report.missing), ([0; 64], [0; 64]));
}

/// A tile's reason, from the floors before and after and from the grants.
fn naive_reason(before: &Floor, answer: &RoundAnswer, tile: usize) -> (u8, u16) {
    if before.tiles[tile].running == 0 {
        return (1, 0);
    }
    if before.tiles[tile].count == 0 {
        return (2, 0);
    }
    let arrow = answer.floor.tiles[tile].next;
    let Some(there) = beside(before, tile, arrow) else {
        return (3, 0);
    };
    let side = 5 - arrow;
    let grant = answer.report.grants[there];
    // Without a grant the turn stays.
    let turn = if grant > 0 {
        grant
    } else {
        answer.floor.tiles[there].token
    };
    if turn != side {
        return (4, 0);
    }
    let s = &before.settings;
    let d = i64::from(s.length) + i64::from(s.gap);
    let mut worst = 0;
    for canister in before.members(there) {
        let (a, b) = (i64::from(canister.a), i64::from(canister.b));
        let room = i64::from(s.width) - i64::from(s.length);
        let free = match side {
            1 => a,
            2 => b,
            3 => room - b,
            _ => room - a,
        };
        worst = worst.max(d - free);
    }
    assert_eq!(worst == 0, grant == side);
    match worst {
        0 => (6, 0),
        _ => (5, worst as u16),
    }
}

/// Whether none of a tile's canisters is where it was, or all are.
fn shifted(before: &Floor, after: &Floor, tile: usize) -> bool {
    let stays = |canister| after.members(tile).contains(canister);
    let stood = before.members(tile).iter().filter(|c| stays(c)).count();
    assert!(stood == 0 || stood == before.members(tile).len());
    stood == 0 && !before.members(tile).is_empty()
}

#[test]
fn on_random_floors() {
    let mut rng = Rng::new(60);
    let mut seen = [0; 7];
    for _ in 0..4_000 {
        let mut floor = random::floor(&mut rng);
        for _ in 0..rng.range(1, 4) {
            let answer = turned(&floor);
            let report = &answer.report;
            for tile in 0..floor.settings.tile_count() {
                let found = (report.reasons[tile], report.missing[tile]);
                assert_eq!(found, naive_reason(&floor, &answer, tile));
                assert_eq!(found.0 == 6, shifted(&floor, &answer.floor, tile));
                assert!(found.1 < floor.settings.width);
                seen[usize::from(found.0)] += 1;
            }
            floor = answer.floor;
        }
    }
    assert!(seen[1..].iter().all(|count| *count > 1_000), "{seen:?}");
}
