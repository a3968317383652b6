//! The throughput of a hopper, as the crew reads it.

use ceromby::{raw, Fed, Refusal, Throughput, WINDOW};

use crate::{canister, fresh};

#[test]
fn windows() -> Result<(), Refusal> {
    let mut record = Throughput::new();
    assert_eq!((record.last(), record.has_closed()), (None, false));
    for window in 1..=3u16 {
        for round in 1..WINDOW {
            let fed = record.feed(window.into())?;
            assert_eq!(fed, Fed::Open { rounds: round });
            assert_eq!(
                (record.rounds(), record.deliveries()),
                (round, round * window)
            );
        }
        let rate = f64::from(255 * window + 4) / 256.0;
        assert_eq!(record.feed(4)?, Fed::Closed { rate });
        assert_eq!((record.rounds(), record.deliveries()), (0, 0));
        assert_eq!((record.last(), record.greatest()), (Some(rate), Some(rate)));
        assert_eq!(record.least(), Some(259.0 / 256.0));
    }
    Ok(())
}

/// One record for each hopper, fed what the hopper took in.
#[test]
fn from_rounds() -> Result<(), Refusal> {
    let mut floor = fresh();
    let mut record = Throughput::new();
    for round in 0..WINDOW {
        if floor.aboard() == 0 {
            floor.book(0, canister(u32::from(round) + 1, 60, 0))?;
        }
        let report = floor.round()?;
        for (_, numbers) in report.deliveries() {
            record.feed(numbers.len() as u32)?;
        }
    }
    assert_eq!(record.last(), Some(1.0));
    Ok(())
}

#[test]
fn refusals() -> Result<(), Refusal> {
    let mut record = Throughput::new();
    record.feed(4)?;
    let before = record.clone();
    for count in [5, 255, 256, u32::MAX] {
        assert_eq!(record.feed(count), Err(Refusal::CountTooHigh));
    }
    assert_eq!(record, before);
    assert_eq!(Throughput::try_from(*record.as_raw()), Ok(record));
    for least in [-0.0, 0.001, f64::NAN] {
        let spoiled = raw::Throughput {
            least,
            closed: 1,
            ..raw::Throughput::default()
        };
        assert_eq!(Throughput::try_from(spoiled), Err(Refusal::Malformed));
    }
    Ok(())
}
