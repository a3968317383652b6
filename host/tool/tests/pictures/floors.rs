//! Floors that are drawn.

use ceromby::{tile, Canister, Floor, Refusal, Settings};

/// The tiles of a set.
fn set(tiles: &[u8]) -> u64 {
    tiles.iter().map(|&number| tile(number)).sum()
}

/// U 1,000, l 250, r 50, v 200.
fn settings(columns: u8, rows: u8, hoppers: &[u8], sources: &[u8]) -> Settings {
    Settings {
        columns,
        rows,
        hoppers: set(hoppers),
        sources: set(sources),
        width: 1_000,
        length: 250,
        gap: 50,
        travel: 200,
    }
}

fn rounds(floor: &mut Floor, count: u32) -> Result<(), Refusal> {
    (0..count).try_for_each(|_| floor.round().map(|_| ()))
}

/// Books on a tile if it has a place, and tells whether it had.
fn book(floor: &mut Floor, tile: u32, number: u32) -> Result<bool, Refusal> {
    match floor.book_anywhere(tile, number) {
        Ok(_) => Ok(true),
        Err(Refusal::NoPlace) => Ok(false),
        Err(other) => Err(other),
    }
}

/// Books on a tile until it has no place, with numbers `step` apart.
fn fill(floor: &mut Floor, tile: u32, step: u32) -> Result<(), Refusal> {
    while book(floor, tile, floor.counters().last + step)? {}
    Ok(())
}

/// The standard floor, fresh.
pub fn fresh() -> Result<Floor, Refusal> {
    Floor::load(&[])
}

/// A busy 4 x 4 floor: numbers of one to ten digits, a layout, a stopped tile.
pub fn busy() -> Result<Floor, Refusal> {
    let mut floor = Floor::fresh(settings(4, 4, &[10], &[0, 4, 15]))?;
    floor.keep("ALL")?;
    for round in 0..14 {
        for tile in [0, 4, 15] {
            let number = (u64::from(floor.counters().last) * 9 / 5 + 1) as u32;
            book(&mut floor, tile, number)?;
        }
        if round == 9 {
            floor.stop(9)?;
        }
        floor.round()?;
    }
    floor.keep("NETS")?;
    Ok(floor)
}

/// 8 x 8 tiles with sixteen canisters on nearly all, numbers of up to ten digits.
pub fn full() -> Result<Floor, Refusal> {
    let sources: Vec<u8> = (0..64).filter(|&number| number != 36).collect();
    let mut floor = Floor::fresh(Settings {
        gap: 0,
        ..settings(8, 8, &[36], &sources)
    })?;
    rounds(&mut floor, 14)?;
    for _ in 0..2 {
        for tile in (0..64).filter(|&number| number != 36) {
            fill(&mut floor, tile, 4_000_000)?;
        }
        floor.round()?;
    }
    Ok(floor)
}

/// 5 x 3 tiles with three hoppers that took something in.
pub fn hoppers() -> Result<Floor, Refusal> {
    let mut floor = Floor::fresh(settings(5, 3, &[0, 7, 14], &[2, 4, 12]))?;
    for _ in 0..60 {
        for tile in [2, 4, 12] {
            let number = floor.counters().last + 1;
            book(&mut floor, tile, number)?;
        }
        floor.round()?;
    }
    Ok(floor)
}

/// 3 x 3 tiles: a stopped fill tile with canisters, a stopped empty tile, and a
/// corner that is cut off.
pub fn stopped() -> Result<Floor, Refusal> {
    let mut floor = Floor::fresh(settings(3, 3, &[8], &[0, 1]))?;
    rounds(&mut floor, 4)?;
    fill(&mut floor, 0, 1)?;
    fill(&mut floor, 1, 1)?;
    floor.stop(1)?;
    floor.stop(3)?;
    rounds(&mut floor, 12)?;
    Ok(floor)
}

/// The smallest measures that there are, and the widest canister.
pub fn extremes() -> Result<Vec<Floor>, Refusal> {
    let least = Settings {
        width: 3,
        length: 2,
        gap: 0,
        travel: 1,
        ..settings(2, 1, &[1], &[0])
    };
    let widest = Settings {
        width: 60_000,
        length: 59_999,
        gap: 0,
        travel: 59_998,
        ..settings(1, 8, &[0], &[7])
    };
    let small = Settings {
        width: 60_000,
        length: 11_999,
        gap: 7,
        travel: 1,
        ..settings(8, 1, &[0], &[7])
    };
    let mut floors = Vec::new();
    for (settings, source) in [(least, 0), (widest, 7), (small, 7)] {
        let mut floor = Floor::fresh(settings)?;
        floor.book(source, Canister::new(4_000_000_000, 1, 1))?;
        fill(&mut floor, source, 1)?;
        floors.push(floor);
    }
    Ok(floors)
}
