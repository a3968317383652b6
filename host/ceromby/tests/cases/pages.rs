//! The page ([7]).

use ceromby::{tile, Refusal};

use crate::{canister, fresh, rounds, two};

#[test]
fn of_18_bytes_and_the_two_bytes_after_it_stay() -> Result<(), Refusal> {
    let mut buffer = [b'.'; 20];
    assert_eq!(two().page(&mut buffer)?, 18);
    assert_eq!(buffer, *b"| 0 - --| 0 -  0|\n..");
    Ok(())
}

#[test]
fn a_buffer_of_17_bytes_is_43() {
    let mut buffer = [b'.'; 17];
    assert_eq!(two().page(&mut buffer), Err(Refusal::ShortPage));
    assert_eq!(buffer, [b'.'; 17]);
}

/// Settled, then tile 1, in the north-west, stopped, and a canister on tile 0, in
/// the south-west.
#[test]
fn the_north_row_first_tile_1_stopped() -> Result<(), Refusal> {
    let mut floor = fresh(2, 2, tile(3), tile(0) | tile(1) | tile(2));
    rounds(&mut floor, 3)?;
    floor.stop(1)?;
    floor.book(0, canister(5, 0, 0))?;
    let mut buffer = [7; 36];
    assert_eq!(floor.page(&mut buffer)?, 36);
    assert_eq!(buffer, *b"| 0 - XX| 0 -  0|\n| 1 N  2| 0 N  1|\n");
    Ok(())
}
