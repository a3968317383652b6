//! The floor on the wheelhouse page.

use crate::SETTINGS;
use ceromby::raw::{book, fresh, load, page, refusal, round, stop, Canister, LONGEST_PAGE};

#[test]
fn the_fresh_floor_of_two_tiles() {
    let mut buffer = [0x5a; 20];
    assert_eq!(page(&fresh(SETTINGS).floor, &mut buffer), Ok(18));
    assert_eq!(buffer[..18], *b"| 0 - --| 0 -  0|\n");
    assert_eq!(buffer[18..], [0x5a; 2]);
}

#[test]
fn the_standard_floor_under_way() {
    let mut floor = load(&[]).floor;
    for number in 1..=3u16 {
        let canister = Canister {
            number: number.into(),
            a: 300 * (number - 1),
            b: 0,
        };
        floor = book(&floor, 4, canister).floor;
    }
    for _ in 0..2 {
        floor = round(&floor).floor;
    }
    floor = stop(&floor, 3).floor;
    let mut buffer = [0; LONGEST_PAGE];
    let length = page(&floor, &mut buffer).expect("a page");
    let lines = [
        "| 0 - XX| 0 S  2| 0 S  1| 0 W  2|",
        "| 0 E  2| 0 E  1| 0 -  0| 0 W  1|",
        "| 0 - --| 0 N  2| 0 N  1| 0 W  2|",
        "| 0 - --| 3 - --| 0 N  2| 0 - --|",
    ];
    assert_eq!(buffer[..length], *(lines.join("\n") + "\n").as_bytes());
}

#[test]
fn refusals() {
    let floor = fresh(SETTINGS).floor;
    let mut malformed = floor;
    malformed.tiles[0].running = 2;
    let mut buffer = [0x5a; 18];
    for size in 0..18 {
        assert_eq!(page(&floor, &mut buffer[..size]), Err(refusal::SHORT_PAGE));
        assert_eq!(
            page(&malformed, &mut buffer[..size]),
            Err(refusal::MALFORMED)
        );
    }
    assert_eq!(page(&malformed, &mut buffer), Err(refusal::MALFORMED));
    assert_eq!(buffer, [0x5a; 18]);
}
