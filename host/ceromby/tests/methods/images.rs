//! Images: stored, loaded, cut, with a changed bit.

use ceromby::{tile, Floor, Refusal, Settings, LONGEST_IMAGE};

use crate::{canister, fresh};

#[test]
fn written_and_loaded() -> Result<(), Refusal> {
    let mut floor = fresh();
    floor.book(0, canister(5, 0, 0))?;
    floor.keep("ALL")?;
    let mut buffer = [0x5a; LONGEST_IMAGE];
    let length = floor.write(&mut buffer)?;
    assert!(buffer[length..].iter().all(|byte| *byte == 0x5a));
    assert_eq!(Floor::load(&buffer[..length])?, floor);
    assert_eq!(floor.to_image()?, buffer[..length]);
    for cut in 1..length {
        assert_eq!(Floor::load(&buffer[..cut]), Err(Refusal::ImageEnds));
        assert_eq!(floor.write(&mut buffer[..cut]), Err(Refusal::ShortBuffer));
    }
    Ok(())
}

#[test]
fn a_blank_controller() -> Result<(), Refusal> {
    let standard = Settings {
        columns: 4,
        rows: 4,
        hoppers: tile(10),
        sources: tile(4),
        width: 1_000,
        length: 250,
        gap: 50,
        travel: 200,
    };
    let blank = Floor::load(&[])?;
    assert_eq!(blank, Floor::fresh(standard)?);
    assert_eq!(Floor::load(&blank.to_image()?)?, blank);
    Ok(())
}

/// An image has no checksum. README tells how many changed bits go unnoticed.
#[test]
fn changed_bits() -> Result<(), Refusal> {
    let mut floor = Floor::load(&[])?;
    for number in 1..=6 {
        floor.book_anywhere(4, number)?;
        for _ in 0..2 {
            floor.round()?;
        }
    }
    floor.stop(3)?;
    floor.keep("NETS")?;
    let image = floor.to_image()?;
    let bits = 8 * image.len();
    let (mut loaded, mut same) = (0, 0);
    for bit in 0..bits {
        let mut changed = image.clone();
        changed[bit / 8] ^= 1 << (bit % 8);
        if let Ok(other) = Floor::load(&changed) {
            loaded += 1;
            same += usize::from(other == floor);
        }
    }
    assert_eq!(same, 0);
    let readme = include_str!("../../../../README.md");
    let told = format!("{loaded} of its {bits} single bit flips");
    assert!(readme.replace(',', "").contains(&told), "{told}");
    Ok(())
}
