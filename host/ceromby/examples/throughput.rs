//! Throughput: a record for each hopper, fed every round, tells the deliveries
//! in a round over windows of 256 rounds.

use ceromby::{tile, Fed, Floor, Refusal, Settings, Throughput, WINDOW};

fn main() -> Result<(), Refusal> {
    // five tiles in a row, a hopper at each end, fill beside them
    let mut floor = Floor::fresh(Settings {
        columns: 5,
        rows: 1,
        hoppers: tile(0) | tile(4),
        sources: tile(1) | tile(3),
        width: 1_000,
        length: 250,
        gap: 50,
        travel: 200,
    })?;
    let hoppers: Vec<u32> = ceromby::tiles(floor.settings().hoppers).collect();
    let mut records = vec![Throughput::new(); hoppers.len()];
    let mut number = 0;
    for round in 1..=2 * WINDOW {
        // in the west as much as the tile takes, in the east one now and then
        for (tile, every) in [(1, 1), (3, if round <= WINDOW { 4 } else { 16 })] {
            if round % every == 0 {
                match floor.book_anywhere(tile, number + 1) {
                    Ok(_) => number += 1,
                    Err(Refusal::NoPlace) => {}
                    Err(other) => return Err(other),
                }
            }
        }
        let report = floor.round()?;
        for ((hopper, numbers), record) in report.deliveries().zip(&mut records) {
            if let Fed::Closed { rate } = record.feed(numbers.len() as u32)? {
                println!("round {round}, hopper {hopper}: {rate:.3} in a round");
            }
        }
    }
    for (hopper, record) in hoppers.iter().zip(&records) {
        if let (Some(least), Some(greatest)) = (record.least(), record.greatest()) {
            println!("hopper {hopper}: {least:.3} to {greatest:.3}");
        }
    }
    Ok(())
}
