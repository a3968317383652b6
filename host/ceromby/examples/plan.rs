//! A plan: medicated feed follows plain, round after round until all is
//! delivered.

use ceromby::{Entry, Floor, Plan, Refusal, Stage};

fn main() -> Result<(), Refusal> {
    let mut floor = Floor::load(&[])?; // the standard floor: fill tile 4, hopper 10
    let mut plan = Plan::new(&[
        Entry::new(1, 4),                  // plain
        Entry::new(2, 4),                  // plain
        Entry::new(3, 4).after_both(1, 2), // medicated
        Entry::new(4, 4).after(3),         // plain again
    ])?;
    if let Err(refusal) = plan.release(&mut floor, 3) {
        println!("label 3 first: refused {}: {refusal}", refusal.number());
    }
    let mut round = 0;
    while !plan.is_done() {
        while let Some(label) = plan.offer()? {
            match plan.release(&mut floor, label) {
                Ok(released) => println!(
                    "round {round}: label {label} is canister {} at {}",
                    released.number, released.place
                ),
                Err(Refusal::NoPlace) => break, // the tile is full; a round makes room
                Err(other) => return Err(other),
            }
        }
        round += 1;
        let report = floor.round()?;
        plan.report(&report)?; // every report, from the first release on
        for number in report.delivered() {
            println!("round {round}: canister {number} is delivered");
        }
    }
    let delivered = |entry: &&Entry| entry.stage() == Stage::Delivered;
    let count = plan.entries().iter().filter(delivered).count();
    println!("{count} of {} labels are delivered", plan.entries().len());
    Ok(())
}
