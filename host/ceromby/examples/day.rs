//! A day on a floor: bookings, a list from a phone, rounds, a tile that stops,
//! a layout for net cleaning, and the image in the evening.

use std::error::Error;
use std::fs::{self, File};
use std::io::Write;
use std::path::Path;

use ceromby::{tile, Booking, Canister, Floor, Refusal, Settings};

/// Three columns, two rows: fill on tiles 0 and 1 in the west, the hopper in the
/// north-east. A tile's number is column x rows + row.
const SETTINGS: Settings = Settings {
    columns: 3,
    rows: 2,
    hoppers: tile(5),
    sources: tile(0) | tile(1),
    width: 1_000,
    length: 250,
    gap: 50,
    travel: 200,
};

fn main() -> Result<(), Box<dyn Error>> {
    let mut floor = Floor::fresh(SETTINGS)?;
    fill(&mut floor)?;
    run(&mut floor)?;
    clean_nets(&mut floor)?;
    let file = std::env::temp_dir().join(format!("ceromby-day-{}", std::process::id()));
    store(&floor, &file)?;
    // load only what was read to the file's end: zero bytes are the standard floor
    let again = Floor::load(&fs::read(&file)?)?;
    fs::remove_file(&file)?;
    println!("stored and loaded: {}", again == floor);
    Ok(())
}

/// The morning: two bookings by hand, then a list from a phone.
fn fill(floor: &mut Floor) -> Result<(), Refusal> {
    let place = floor.book_anywhere(0, 1)?;
    println!("canister 1 goes to tile 0 at {place}");
    match floor.book(0, Canister::new(2, 100, 0)) {
        Ok(()) => println!("canister 2 is booked"),
        Err(refusal) => println!("canister 2: refused {}: {refusal}", refusal.number()),
    }
    let mut list = [
        Booking::new(1, Canister::new(2, 0, 0)),
        Booking::new(1, Canister::new(3, 300, 0)),
        Booking::new(1, Canister::new(4, 600, 0)),
        Booking::new(5, Canister::new(5, 0, 0)),
    ];
    let accepted = floor.book_list(&mut list)?;
    println!("{accepted} of {} are booked", list.len());
    for entry in &list {
        if let Some(Err(refusal)) = entry.answer() {
            println!("canister {}: {refusal}", entry.canister.number);
        }
    }
    Ok(())
}

/// Rounds until all is delivered. Tile 3 stops for a while: what is on it stays,
/// and the others take the other way.
fn run(floor: &mut Floor) -> Result<(), Refusal> {
    let mut round = 0;
    while floor.aboard() > 0 {
        round += 1;
        match round {
            4 => {
                floor.stop(3)?;
                print!("tile 3 stops\n{floor}");
            }
            20 => floor.repair(3)?,
            _ => {}
        }
        let report = floor.round()?;
        for number in report.delivered() {
            println!("round {round}: canister {number} is delivered");
        }
        if round == 8 {
            for (tile, reason) in report.reasons() {
                println!("round {round}: tile {tile}: {reason}");
            }
        }
    }
    Ok(())
}

/// The same tiles stop whenever the nets are cleaned.
fn clean_nets(floor: &mut Floor) -> Result<(), Refusal> {
    floor.keep("ALL")?;
    floor.stop(0)?;
    floor.stop(1)?;
    floor.keep("NETS")?;
    floor.recall("ALL")?;
    floor.recall("NETS")?;
    let stopped: Vec<_> = floor
        .tiles()
        .filter(|(_, tile)| !tile.is_running())
        .map(|(number, _)| number)
        .collect();
    println!("for the nets these tiles stand: {stopped:?}");
    floor.recall("ALL")
}

/// A new file first, then in the place of the old one: a power cut leaves one of
/// the two, never an empty file.
fn store(floor: &Floor, file: &Path) -> Result<(), Box<dyn Error>> {
    let image = floor.to_image()?;
    let new = file.with_extension("new");
    let mut out = File::create(&new)?;
    out.write_all(&image)?;
    out.sync_all()?;
    fs::rename(new, file)?;
    println!("an image of {} bytes", image.len());
    Ok(())
}
