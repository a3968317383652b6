//! Any memory at all: no call panics, and 30 comes exactly when it should.

use crate::naive;
use oracle::random::{self, Rng};
use oracle::{
    book, book_anywhere, book_list, forget, fresh, keep, read, recall, repair, round,
    settings_refusal, stop, well_formed, write, Booking, Canister, Floor, Layout, Report,
    LONGEST_IMAGE,
};

fn try_all(rng: &mut Rng, floor: &Floor, buffer: &mut [u8]) {
    let sound = well_formed(floor);
    assert_eq!(sound, naive::well_formed(floor));
    let tile = match rng.chance(1, 4) {
        true => rng.draw() as u32,
        false => random::any_tile(rng, floor),
    };
    let canister = Canister {
        number: rng.draw() as u32,
        a: rng.draw() as u16,
        b: rng.draw() as u16,
    };
    let name = match rng.chance(1, 3) {
        true => random::bad_name(rng),
        false => random::name_for(rng, floor),
    };
    for answer in [
        book(floor, tile, canister),
        stop(floor, tile),
        repair(floor, tile),
        keep(floor, name),
        forget(floor, name),
        recall(floor, name),
    ] {
        assert_eq!(answer.refusal == 30, !sound);
        if answer.refusal != 0 {
            assert_eq!(answer.floor, *floor);
        } else {
            assert!(well_formed(&answer.floor));
        }
    }
    let answer = book_anywhere(floor, tile, canister.number);
    assert_eq!(answer.refusal == 30, !sound);
    if answer.refusal != 0 {
        assert_eq!((answer.floor, answer.a, answer.b), (*floor, 0, 0));
    }
    let mut list = [Booking {
        tile,
        canister,
        answer: 0x5a,
    }; 3];
    let answer = book_list(floor, &mut list);
    assert_eq!(answer.refusal, 0);
    for entry in list {
        assert_eq!(entry.answer == 30, !sound);
    }
    assert!(sound || answer.floor == *floor);
    let answer = round(floor);
    assert_eq!(answer.refusal, if sound { 0 } else { 30 });
    if !sound {
        assert_eq!(answer.floor, *floor);
        assert_eq!(answer.report, Report::ZERO);
    }
    assert_eq!(read(floor, tile).refusal == 30, !sound);
    buffer.fill(0x5a);
    let answer = write(floor, buffer);
    assert_eq!(answer.refusal, if sound { 0 } else { 30 });
    if !sound {
        assert_eq!(answer.length, 0);
        assert!(buffer.iter().all(|byte| *byte == 0x5a));
    }
}

#[test]
fn garbage_never_panics() {
    let mut rng = Rng::new(20);
    let mut buffer = vec![0; LONGEST_IMAGE];
    for _ in 0..1_500 {
        let floor = random::garbage_floor(&mut rng);
        try_all(&mut rng, &floor, &mut buffer);
    }
}

#[test]
fn nearly_sound_floors_never_panic() {
    let mut rng = Rng::new(21);
    let mut buffer = vec![0; LONGEST_IMAGE];
    for _ in 0..6_000 {
        let floor = random::nearly_sound_floor(&mut rng);
        try_all(&mut rng, &floor, &mut buffer);
    }
}

#[test]
fn one_byte_everywhere() {
    let mut buffer = vec![0; LONGEST_IMAGE];
    for byte in [1u8, 2, 8, 255] {
        let mut floor = Floor::ZERO;
        let tile = &mut floor.tiles[0];
        (tile.running, tile.distance, tile.next) = (byte, byte, byte);
        (tile.token, tile.count) = (byte, byte);
        floor.tiles = [floor.tiles[0]; 64];
        let pair = u16::from_le_bytes([byte; 2]);
        let canister = Canister {
            number: u32::from_le_bytes([byte; 4]),
            a: pair,
            b: pair,
        };
        floor.canisters = [canister; 1024];
        let s = &mut floor.settings;
        (s.columns, s.rows) = (byte, byte);
        (s.width, s.length, s.gap, s.travel) = (pair, pair, pair, pair);
        s.hoppers = u64::from_le_bytes([byte; 8]);
        s.sources = s.hoppers;
        let set = s.hoppers;
        floor.layouts = [Layout { name: set, set }; 8];
        let mut rng = Rng::new(byte.into());
        try_all(&mut rng, &floor, &mut buffer);
    }
}

#[test]
fn any_settings_give_one_of_the_answers() {
    let mut rng = Rng::new(22);
    let mut seen = [0; 4];
    for _ in 0..20_000 {
        let settings = random::any_settings(&mut rng);
        let answer = fresh(settings);
        assert_eq!(answer.refusal, settings_refusal(&settings));
        if answer.refusal == 0 {
            assert!(well_formed(&answer.floor));
        } else {
            assert_eq!(answer.floor, Floor::ZERO);
        }
        seen[usize::from(answer.refusal)] += 1;
    }
    assert!(seen.iter().all(|count| *count > 500), "{seen:?}");
}
