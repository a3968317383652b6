//! A barge: four floors that may have three canisters aboard together.

use ceromby::{Barge, Floor, Refusal};

fn main() -> Result<(), Refusal> {
    let floor = Floor::load(&[])?; // the standard floor: fill tile 4, hopper 10
    let floors = [floor.clone(), floor.clone(), floor.clone(), floor];
    let mut barge = Barge::new(floors, 3)?;
    for floor in 0..4 {
        match barge.book_anywhere(floor, 4, 1) {
            Ok(place) => println!("floor {floor}: canister 1 at {place}"),
            Err(refusal) => println!("floor {floor}: refused {}: {refusal}", refusal.number()),
        }
    }
    // a delivery on any floor makes room for one more
    let mut rounds = 0;
    while barge.aboard() == barge.allowance() {
        rounds += 1;
        for number in barge.round(1)?.delivered() {
            println!("floor 1, round {rounds}: canister {number} is delivered");
        }
    }
    let place = barge.book_anywhere(3, 4, 1)?;
    println!("floor 3: canister 1 at {place}, {} aboard", barge.aboard());
    // reading, images, layouts and lists: on the floor itself
    barge.floor_mut(0)?.keep("ALL")?;
    let image = barge.floor(0)?.to_image()?;
    println!("floor 0: an image of {} bytes", image.len());
    print!("{}", barge.floor(0)?);
    Ok(())
}
