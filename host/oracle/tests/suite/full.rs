//! The full 8 x 8 floor of host/ceromby/tests/cases/full.rs: the same figures, from this implementation.

use oracle::{book, fresh, round, Canister, Floor, Settings};

fn filled() -> Floor {
    let settings = Settings {
        columns: 8,
        rows: 8,
        hoppers: 1 << 27,
        sources: !(1 << 27),
        width: 100,
        length: 10,
        gap: 20,
        travel: 9,
    };
    let mut floor = fresh(settings).floor;
    for k in (0..1024u32).filter(|k| k / 16 != 27) {
        let canister = Canister {
            number: k + 1,
            a: (k % 4 * 30) as u16,
            b: (k / 4 % 4 * 30) as u16,
        };
        let answer = book(&floor, k / 16, canister);
        assert_eq!(answer.refusal, 0);
        floor = answer.floor;
    }
    floor
}

#[test]
fn the_full_floor_empties_as_stored() {
    let mut floor = filled();
    let (mut rounds, mut reported, mut sum) = (0, 0, 0);
    while reported < 1008 && rounds < 60_000 {
        let answer = round(&floor);
        assert_eq!(answer.refusal, 0);
        reported += answer.report.delivered().count();
        sum += answer.report.delivered().sum::<u32>();
        rounds += 1;
        floor = answer.floor;
        if rounds == 100 {
            assert_eq!(reported, 100);
        }
    }
    assert_eq!((rounds, reported, sum), (3_690, 1_008, 517_752));
}
