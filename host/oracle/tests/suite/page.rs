//! The page (request [7]).

use crate::common::*;
use oracle::random::{self, Rng};
use oracle::{page, stop, Floor, Settings, Tile, LONGEST_PAGE, STANDARD};

/// The page of a floor as text.
fn text(floor: &Floor) -> String {
    let mut buffer = [0; LONGEST_PAGE];
    let answer = page(floor, &mut buffer);
    assert_eq!(answer.refusal, 0);
    let used = &buffer[..answer.length as usize];
    used.iter().map(|byte| char::from(*byte)).collect()
}

fn grid(columns: u8, rows: u8) -> Floor {
    made(Settings {
        columns,
        rows,
        hoppers: 1,
        sources: 0,
        ..STANDARD
    })
}

#[test]
fn the_fresh_floor_of_two_tiles() {
    let settings = Settings {
        columns: 2,
        rows: 1,
        hoppers: 2,
        sources: 1,
        width: 100,
        length: 30,
        gap: 10,
        travel: 20,
    };
    assert_eq!(text(&made(settings)), "| 0 - --| 0 -  0|\n");
}

#[test]
fn the_north_row_comes_first() {
    let mut floor = grid(3, 2);
    for (tile, distance, next) in [(1, 1, 2), (2, 1, 1), (3, 2, 4), (4, 5, 3), (5, 3, 1)] {
        floor.tiles[tile] = Tile {
            distance,
            next,
            ..floor.tiles[tile]
        };
    }
    let expected = "| 0 S  1| 0 E  2| 0 W  3|\n| 0 -  0| 0 W  1| 0 N  5|\n";
    assert_eq!(text(&floor), expected);
}

#[test]
fn stopped_tiles_and_wide_numbers() {
    let mut floor = grid(8, 8);
    (floor.tiles[9].distance, floor.tiles[9].next) = (10, 1);
    (floor.tiles[10].distance, floor.tiles[10].next) = (63, 4);
    let floor = stop(&floor, 11).floor;
    let lines: Vec<String> = text(&floor).lines().map(String::from).collect();
    let second = |line: &str| line[8..17].to_string();
    assert_eq!(second(&lines[6]), "| 0 W 10|");
    assert_eq!(second(&lines[5]), "| 0 E 63|");
    assert_eq!(second(&lines[4]), "| 0 - XX|");
    assert_eq!(second(&lines[3]), "| 0 - --|");
    assert_eq!(text(&floor).len(), LONGEST_PAGE);
}

#[test]
fn counts_of_sixteen() {
    let mut rng = Rng::new(3);
    let full = loop {
        let floor = random::floor(&mut rng);
        let mut tiles = floor.tiles.iter();
        if tiles.any(|tile| tile.count == 16) && tiles.any(|tile| tile.count == 9) {
            break floor;
        }
    };
    let page = text(&full);
    assert!(page.contains("|16 ") && page.contains("| 9 "), "{page}");
}

#[test]
fn every_size() {
    for columns in 1..=8 {
        for rows in 1..=8 {
            if columns * rows < 2 {
                continue;
            }
            let floor = grid(columns, rows);
            let length = usize::from(rows) * (8 * usize::from(columns) + 2);
            assert_eq!(text(&floor).len(), length);
            let mut buffer = vec![7; length + 3];
            for short in 0..length {
                let answer = page(&floor, &mut buffer[..short]);
                assert_eq!((answer.refusal, answer.length), (43, 0));
            }
            assert!(buffer.iter().all(|byte| *byte == 7));
            let exact = page(&floor, &mut buffer[..length]);
            assert_eq!((exact.refusal, exact.length), (0, length as u32));
            let longer = page(&floor, &mut buffer);
            assert_eq!((longer.refusal, longer.length), (0, length as u32));
            assert_eq!(buffer[length..], [7; 3]);
        }
    }
}

#[test]
fn malformed_floors_are_30() {
    let mut floor = grid(2, 2);
    floor.tiles[1].running = 2;
    let mut buffer = [7; LONGEST_PAGE];
    for size in [0, 1, 35, 36, 37, LONGEST_PAGE] {
        let answer = page(&floor, &mut buffer[..size]);
        assert_eq!((answer.refusal, answer.length), (30, 0));
    }
    assert_eq!(page(&Floor::ZERO, &mut []).refusal, 30);
    let garbage = Floor {
        settings: Settings {
            columns: 255,
            rows: 255,
            ..Settings::ZERO
        },
        ..Floor::ZERO
    };
    assert_eq!(page(&garbage, &mut buffer).refusal, 30);
    assert_eq!(buffer, [7; LONGEST_PAGE]);
}
