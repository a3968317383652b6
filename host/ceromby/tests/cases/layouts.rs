//! Named layouts ([8]).

use ceromby::{tile, Counters, Floor, Name, Refusal};

use crate::{canister, distances, fresh, hoppers, rounds};

const ALL: u64 = 0b1111;

/// W 4, H 1, hopper 3, canister 5 on tile 0, four rounds gone.
fn row() -> Result<Floor, Refusal> {
    let mut floor = fresh(4, 1, tile(3), tile(0));
    floor.book(0, canister(5, 0, 0))?;
    rounds(&mut floor, 4)?;
    Ok(floor)
}

/// What is kept: names and sets.
fn kept(floor: &Floor) -> Vec<(String, u64)> {
    let each = floor.layouts();
    each.map(|layout| (layout.letters().to_string(), layout.set))
        .collect()
}

fn named(name: &str, set: u64) -> (String, u64) {
    (name.to_string(), set)
}

/// A recall of A repairs tile 1: it runs, without a distance; tile 2 keeps its own.
#[test]
fn a_keeps_all_b_all_but_tile_1_each_recalled() -> Result<(), Refusal> {
    let mut floor = row()?;
    floor.keep("A")?;
    floor.stop(1)?;
    floor.keep("B")?;
    floor.recall("A")?;
    assert!(floor.read(1)?.is_running());
    assert_eq!(distances(&floor)[1..], [None, Some(1), Some(0)]);
    let mut other = floor.clone();
    other.recall("B")?;
    assert!(!other.read(1)?.is_running());
    assert!(other.read(2)?.is_running());
    floor.round()?;
    assert_eq!(floor.read(1)?.distance(), Some(2));
    Ok(())
}

/// 5 has moved on and 6 is booked since A was kept.
#[test]
fn a_recall_leaves_canisters_and_counters() -> Result<(), Refusal> {
    let mut floor = row()?;
    floor.keep("A")?;
    rounds(&mut floor, 2)?;
    floor.book(0, canister(6, 0, 40))?;
    let canisters: Vec<_> = floor.canisters().collect();
    floor.stop(1)?;
    floor.recall("A")?;
    assert_eq!(floor.read(0)?.canisters(), [canister(6, 0, 40)]);
    assert_eq!(floor.canisters().collect::<Vec<_>>(), canisters);
    let due = Counters {
        last: 6,
        booked: 2,
        delivered: [0; 4],
    };
    assert_eq!(*floor.counters(), due);
    floor.recall("A")
}

/// Eight names, H to A.
fn full() -> Result<Floor, Refusal> {
    let mut floor = row()?;
    for name in ["H", "G", "F", "E", "D", "C", "B", "A"] {
        floor.keep(name)?;
    }
    Ok(floor)
}

#[test]
fn bad_names_44_not_held_45_a_ninth_46() -> Result<(), Refusal> {
    let mut floor = full()?;
    let letters = *b"A\0B\0\0\0\0\0";
    assert_eq!(floor.keep(Name { letters }), Err(Refusal::BadName));
    assert_eq!(floor.recall(""), Err(Refusal::BadName));
    assert_eq!(floor.recall("I"), Err(Refusal::NameNotHeld));
    assert_eq!(floor.forget("I"), Err(Refusal::NameNotHeld));
    assert_eq!(floor.keep("I"), Err(Refusal::LayoutsFull));
    floor.keep("H")
}

/// B is kept first, then A, which comes before it.
#[test]
fn by_rising_name_kept_replaced_forgotten() -> Result<(), Refusal> {
    let mut floor = row()?;
    floor.keep("B")?;
    floor.keep("A")?;
    assert_eq!(kept(&floor), [named("A", ALL), named("B", ALL)]);
    floor.stop(1)?;
    floor.keep("A")?;
    let due = [named("A", ALL & !tile(1)), named("B", ALL)];
    assert_eq!(kept(&floor), due);
    floor.forget("A")?;
    assert_eq!(kept(&floor), [named("B", ALL)]);
    Ok(())
}

#[test]
fn forgetting_one_of_eight_frees_its_place() -> Result<(), Refusal> {
    let mut floor = full()?;
    floor.forget("D")?;
    assert_eq!(floor.forget("D"), Err(Refusal::NameNotHeld));
    floor.keep("I")?;
    assert_eq!(floor.keep("D"), Err(Refusal::LayoutsFull));
    floor.recall("I")?;
    let due = ["A", "B", "C", "E", "F", "G", "H", "I"];
    assert_eq!(kept(&floor), due.map(|name| named(name, ALL)));
    Ok(())
}

/// The floor of 94 bytes with two hoppers, and two layouts of 20 bytes each.
#[test]
fn two_layouts_an_image_of_134_bytes_loaded_again() -> Result<(), Refusal> {
    let mut floor = hoppers::one_delivered()?;
    floor.keep("A")?;
    floor.stop(1)?;
    floor.keep("B")?;
    let image = floor.to_image()?;
    assert_eq!(image.len(), 134);
    let loaded = Floor::load(&image)?;
    assert_eq!(loaded, floor);
    assert_eq!(loaded.to_image()?, image);
    assert_eq!(kept(&loaded), [named("A", 0b111), named("B", 0b101)]);
    Ok(())
}
