//! Throughput (request [2]).

use oracle::random::Rng;
use oracle::refusal::{COUNT_TOO_HIGH, MALFORMED};
use oracle::{deliveries_of, feed, Fed, Throughput, WINDOW};

/// A record whose windows closed with 2, 3 and 5 deliveries.
const CLOSED: Throughput = Throughput {
    last: 3.0 / 256.0,
    least: 2.0 / 256.0,
    greatest: 5.0 / 256.0,
    rounds: 7,
    deliveries: 28,
    closed: 1,
};

/// Feeds counts that are all taken; gives the record and the rates of the
/// windows that closed.
fn fed(first: Throughput, counts: impl IntoIterator<Item = u32>) -> (Throughput, Vec<f64>) {
    let mut record = first;
    let mut rates = Vec::new();
    for count in counts {
        let answer = feed(&record, count);
        match answer.fed.expect("taken") {
            Fed::Open { rounds } => {
                assert_eq!(rounds, record.rounds + 1);
                assert_eq!(answer.throughput.rounds, rounds);
            }
            Fed::Closed { rate } => {
                assert_eq!(record.rounds, WINDOW - 1);
                rates.push(rate);
            }
        }
        record = answer.throughput;
    }
    (record, rates)
}

fn refused(record: Throughput, count: u32, refusal: u8) {
    let answer = feed(&record, count);
    assert_eq!(answer.fed, Err(refusal), "{record:?} {count}");
    assert_eq!(answer.throughput, record);
}

#[test]
fn a_window_closes_with_its_256th_round() {
    let (open, rates) = fed(Throughput::ZERO, [1; 255]);
    assert_eq!(rates, []);
    assert_eq!((open.rounds, open.deliveries, open.closed), (255, 255, 0));
    assert_eq!(open.rate_bits(), [0; 3]);
    let (after, rates) = fed(open, [3]);
    assert_eq!(rates, [258.0 / 256.0]);
    assert_eq!(after.rate_bits(), [(258.0f64 / 256.0).to_bits(); 3]);
    assert_eq!((after.rounds, after.deliveries, after.closed), (0, 0, 1));
}

#[test]
fn last_least_and_greatest() {
    let window = |count| [count; 256].into_iter();
    let counts = window(2).chain(window(4)).chain(window(0)).chain(window(1));
    let (record, rates) = fed(Throughput::ZERO, counts);
    assert_eq!(rates, [2.0, 4.0, 0.0, 1.0]);
    let kept = (record.last, record.least, record.greatest);
    assert_eq!(kept, (1.0, 0.0, 4.0));
}

#[test]
fn windows_without_deliveries_close_too() {
    let (record, rates) = fed(Throughput::ZERO, [0; 256]);
    assert_eq!(rates, [0.0]);
    assert_eq!((record.closed, record.rate_bits()), (1, [0; 3]));
    let (record, _) = fed(record, [4; 256]);
    assert_eq!(
        (record.last, record.least, record.greatest),
        (4.0, 0.0, 4.0)
    );
}

#[test]
fn the_sum_over_windows_is_what_was_fed() {
    let mut rng = Rng::new(5);
    let counts: Vec<u32> = (0..5_000).map(|_| rng.below(5) as u32).collect();
    let (record, rates) = fed(Throughput::ZERO, counts.iter().copied());
    assert_eq!(rates.len(), 5_000 / 256);
    let closed: f64 = rates.iter().map(|rate| rate * 256.0).sum();
    let all: u32 = counts.iter().sum();
    assert_eq!(closed + f64::from(record.deliveries), f64::from(all));
    assert_eq!(record.last, rates[rates.len() - 1]);
    assert_eq!(record.least, rates.iter().copied().fold(4.0, f64::min));
    assert_eq!(record.greatest, rates.iter().copied().fold(0.0, f64::max));
}

#[test]
fn every_rate_of_a_window_and_no_other() {
    for deliveries in 0..=1_024u32 {
        let rate = f64::from(deliveries) / 256.0;
        assert_eq!(deliveries_of(rate), Some(deliveries));
        for near in [rate.next_up(), rate.next_down(), -rate] {
            assert_eq!(deliveries_of(near), None, "{near}");
        }
    }
    let others = [
        -0.0,
        1_025.0 / 256.0,
        5.0,
        256.0,
        1e300,
        f64::MAX,
        f64::INFINITY,
        f64::NEG_INFINITY,
        f64::NAN,
        f64::from_bits(0x7ff0_0000_0000_0001),
        f64::from_bits(0xfff0_dead_beef_0001),
        f64::MIN_POSITIVE,
        f64::from_bits(1),
        1.0 / 512.0,
        1.0 / 3.0,
        0.1,
    ];
    for rate in others {
        assert_eq!(deliveries_of(rate), None, "{rate}");
    }
}

#[test]
fn bad_rates_are_30() {
    let bad = [
        -0.0,
        -1.0 / 256.0,
        0.001,
        1_025.0 / 256.0,
        f64::INFINITY,
        f64::NAN,
        f64::from_bits(0x7ff0_0000_0000_0001),
    ];
    for rate in bad {
        let places: [fn(&mut Throughput) -> &mut f64; 3] =
            [|at| &mut at.last, |at| &mut at.least, |at| &mut at.greatest];
        for place in places {
            for mut record in [Throughput::ZERO, CLOSED] {
                *place(&mut record) = rate;
                refused(record, 0, MALFORMED);
                refused(record, 5, MALFORMED);
            }
        }
    }
}

#[test]
fn order_of_the_rates() {
    let with = |last, least, greatest| Throughput {
        last,
        least,
        greatest,
        ..CLOSED
    };
    refused(with(1.0, 2.0, 3.0), 0, MALFORMED);
    refused(with(3.0, 1.0, 2.0), 0, MALFORMED);
    fed(with(2.0, 2.0, 2.0), [0]);
}

#[test]
fn rates_before_the_first_close() {
    for (last, least, greatest) in [(0.0, 0.0, 1.0), (1.0, 0.0, 1.0), (1.0, 1.0, 1.0)] {
        let record = Throughput {
            last,
            least,
            greatest,
            ..Throughput::ZERO
        };
        refused(record, 0, MALFORMED);
        for closed in [1, 2, 255] {
            fed(Throughput { closed, ..record }, [0]);
        }
    }
}

#[test]
fn windows_that_are_30() {
    let with = |rounds, deliveries| Throughput {
        rounds,
        deliveries,
        ..CLOSED
    };
    for rounds in [256, 257, 65_535] {
        refused(with(rounds, 0), 0, MALFORMED);
    }
    for rounds in [0, 1, 254, 255] {
        fed(with(rounds, 4 * rounds), [4]);
        refused(with(rounds, 4 * rounds + 1), 0, MALFORMED);
        refused(with(rounds, 65_535), 0, MALFORMED);
    }
}

#[test]
fn counts_above_four_are_41() {
    for count in [5, 255, 256, 257, 260, 1 << 16, u32::MAX] {
        for record in [Throughput::ZERO, CLOSED] {
            refused(record, count, COUNT_TOO_HIGH);
            refused(
                Throughput {
                    rounds: 300,
                    ..record
                },
                count,
                MALFORMED,
            );
        }
    }
}

#[test]
fn the_closed_byte() {
    for closed in [1, 2, 255] {
        let record = Throughput { closed, ..CLOSED };
        assert_eq!(feed(&record, 0).throughput.closed, closed);
        let last = Throughput {
            rounds: 255,
            ..record
        };
        assert_eq!(feed(&last, 0).throughput.closed, 1);
    }
    assert_eq!(feed(&Throughput::ZERO, 0).throughput.closed, 0);
}
