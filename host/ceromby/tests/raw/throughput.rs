//! The throughput of a hopper, as the crew reads it.

use ceromby::raw::{feed, refusal, Fed, Throughput, WINDOW};

#[test]
fn windows() {
    let mut record = Throughput::default();
    for window in 1..=3u16 {
        for round in 1..WINDOW {
            let (after, fed) = feed(&record, window.into()).expect("taken");
            assert_eq!(fed, Fed::Open { rounds: round });
            assert_eq!((after.rounds, after.deliveries), (round, round * window));
            record = after;
        }
        let (after, fed) = feed(&record, 4).expect("taken");
        let rate = f64::from(255 * window + 4) / 256.0;
        assert_eq!(fed, Fed::Closed { rate });
        assert_eq!((after.rounds, after.deliveries, after.closed), (0, 0, 1));
        assert_eq!((after.last, after.greatest), (rate, rate));
        assert_eq!(after.least, 259.0 / 256.0);
        record = after;
    }
}

#[test]
fn refusals() {
    let new = Throughput::default();
    for count in [5, 255, 256, 260, u32::MAX] {
        assert_eq!(feed(&new, count), Err(refusal::COUNT_TOO_HIGH));
    }
    let rates = [-0.0, -1.0, 0.001, 1_025.0 / 256.0, f64::INFINITY, f64::NAN];
    for least in rates {
        let record = Throughput {
            least,
            closed: 1,
            ..new
        };
        assert_eq!(feed(&record, 0), Err(refusal::MALFORMED));
        assert_eq!(feed(&record, 5), Err(refusal::MALFORMED));
    }
    let early = Throughput {
        greatest: 1.0,
        ..new
    };
    assert_eq!(feed(&early, 0), Err(refusal::MALFORMED));
    let closed = Throughput { closed: 2, ..early };
    let (after, fed) = feed(&closed, 0).expect("taken");
    assert_eq!((after.closed, fed), (2, Fed::Open { rounds: 1 }));
    for (rounds, deliveries) in [(WINDOW, 0), (1, 5), (0, 1)] {
        let record = Throughput {
            rounds,
            deliveries,
            ..new
        };
        assert_eq!(feed(&record, 0), Err(refusal::MALFORMED));
    }
}
