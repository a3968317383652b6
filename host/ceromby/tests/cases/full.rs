//! A full floor: 8 x 8 tiles, sixteen canisters on each but the hopper.

use ceromby::{tile, Canister, Counters, Floor, Refusal, Settings};

const HOPPER: u32 = 27;
/// 63 tiles of sixteen.
const FULL: u32 = 1_008;

/// d = 30 and (100 - 10) div 30 = 3: four places along each axis. Number n, from
/// 1 on, is at the place with n - 1 places before it, tile by tile; the numbers
/// 433 to 448 would be the hopper's.
fn filled() -> Result<Floor, Refusal> {
    let mut floor = Floor::fresh(Settings {
        columns: 8,
        rows: 8,
        hoppers: tile(27),
        sources: !tile(27),
        width: 100,
        length: 10,
        gap: 20,
        travel: 9,
    })?;
    for (on, number, a, b) in places() {
        floor.book(on, Canister::new(number, a, b))?;
    }
    Ok(floor)
}

fn places() -> impl Iterator<Item = (u32, u32, u16, u16)> {
    let all = (0..1_024u16).map(|before| {
        let place = before % 16;
        let (a, b) = (place % 4 * 30, place / 4 * 30);
        (u32::from(before / 16), u32::from(before) + 1, a, b)
    });
    all.filter(|(on, ..)| *on != HOPPER)
}

#[test]
fn the_next_booking_is_34() -> Result<(), Refusal> {
    let mut floor = filled()?;
    for (on, a, b) in [(0, 45, 45), (26, 0, 0), (63, 90, 89)] {
        let booked = floor.book(on, Canister::new(2_000, a, b));
        assert_eq!(booked, Err(Refusal::TooClose));
    }
    assert_eq!(floor.read(63)?.canisters().len(), 16);
    assert_eq!(floor.counters().booked, FULL);
    assert_eq!(floor.aboard(), FULL);
    Ok(())
}

/// All numbers come out, each once. The 100 and the 3,690 rounds are also what
/// the second implementation gives (host/oracle/tests/suite/full.rs).
#[test]
fn all_are_delivered_each_once() -> Result<(), Refusal> {
    let mut floor = filled()?;
    let mut reported = Vec::new();
    let mut rounds = 0;
    while reported.len() < FULL as usize {
        reported.extend(floor.round()?.delivered());
        rounds += 1;
        if rounds == 100 {
            assert_eq!(reported.len(), 100);
            assert_eq!(floor.counters().delivered, [100, 0, 0, 0]);
        }
    }
    assert_eq!(rounds, 3_690);
    reported.sort_unstable();
    let booked: Vec<_> = places().map(|(_, number, ..)| number).collect();
    assert_eq!(reported, booked);
    let due = Counters {
        last: 1_024,
        booked: FULL,
        delivered: [FULL, 0, 0, 0],
    };
    assert_eq!(*floor.counters(), due);
    assert_eq!(floor.aboard(), 0);
    Ok(())
}
