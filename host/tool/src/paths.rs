//! Which tiles have a live path to a hopper.

use ceromby::{tiles, Floor, Settings};

/// The set that has one tile; no set has one above 63.
pub fn bit(tile: u32) -> u64 {
    1u64.checked_shl(tile).unwrap_or(0)
}

/// The tiles from which running tiles lead to a hopper, as a set.
pub fn live(floor: &Floor) -> u64 {
    let settings = floor.settings();
    let running = floor.tiles().filter(|(_, tile)| tile.is_running());
    let running: u64 = running.map(|(number, _)| bit(number)).sum();
    let mut live = settings.hoppers & running;
    loop {
        let grown = live | (beside(live, settings) & running);
        if grown == live {
            return live;
        }
        live = grown;
    }
}

/// The neighbours of a set's tiles.
fn beside(set: u64, settings: &Settings) -> u64 {
    let rows = u32::from(settings.rows);
    let last = u32::from(settings.columns) * rows;
    let near = |number: u32| {
        let row = number % rows;
        let south = (row > 0).then(|| number - 1);
        let north = (row + 1 < rows).then_some(number + 1);
        let west = number.checked_sub(rows);
        let east = Some(number + rows).filter(|east| *east < last);
        [south, north, west, east].into_iter().flatten()
    };
    tiles(set)
        .flat_map(near)
        .fold(0, |all, number| all | bit(number))
}

#[cfg(test)]
mod tests {
    use super::*;
    use ceromby::Refusal;

    /// On every floor of up to 3 x 3 with one hopper, any tiles stopped: the
    /// canisters on live tiles are as many as the library counts.
    #[test]
    fn live_tiles_hold_what_the_library_counts() -> Result<(), Refusal> {
        for (columns, rows) in [(2, 1), (1, 3), (2, 2), (3, 3)] {
            let count = u32::from(columns) * u32::from(rows);
            for stopped in 0..1u64 << count {
                let mut floor = Floor::fresh(Settings {
                    columns,
                    rows,
                    hoppers: 1,
                    sources: (1 << count) - 2,
                    width: 100,
                    length: 30,
                    gap: 10,
                    travel: 20,
                })?;
                for number in 1..count {
                    floor.book_anywhere(number, number)?;
                }
                for number in tiles(stopped).filter(|number| *number > 0) {
                    floor.stop(number)?;
                }
                let on_live = (live(&floor) & !1).count_ones();
                assert_eq!(on_live, floor.bound()?.connected, "{floor}");
            }
        }
        Ok(())
    }
}
