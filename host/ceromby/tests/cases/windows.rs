//! Throughput in windows of 256 rounds ([2]).

use ceromby::raw::as_in_c;
use ceromby::raw::{self, refusal, FED_REFUSED};
use ceromby::{Fed, Refusal, Throughput, WINDOW};

use crate::{canister, two_with};

fn feed(record: &mut Throughput, count: u32, times: u16) -> Result<(), Refusal> {
    (0..times).try_for_each(|_| record.feed(count).map(drop))
}

#[test]
fn of_255_rounds_open_the_256th_closes_with_rate_1() -> Result<(), Refusal> {
    let mut record = Throughput::new();
    feed(&mut record, 1, 254)?;
    assert_eq!(record.feed(1)?, Fed::Open { rounds: 255 });
    assert_eq!(record.feed(1)?, Fed::Closed { rate: 1.0 });
    assert_eq!((record.rounds(), record.deliveries()), (0, 0));
    assert!(record.has_closed());
    Ok(())
}

#[test]
fn the_first_close_sets_all_three_then_none_then_four_a_round() -> Result<(), Refusal> {
    let mut record = Throughput::new();
    let rates = |record: &Throughput| [record.last(), record.least(), record.greatest()];
    for (count, due) in [
        (1, [1.0, 1.0, 1.0]),
        (0, [0.0, 0.0, 1.0]),
        (4, [4.0, 0.0, 4.0]),
    ] {
        feed(&mut record, count, WINDOW)?;
        assert_eq!(rates(&record), due.map(Some));
    }
    Ok(())
}

/// All fields, the rates by their bits: -0 is not 0 here.
fn bits(record: &raw::Throughput) -> ([u64; 3], u16, u16, u8) {
    let rates = [record.last, record.least, record.greatest];
    (
        rates.map(f64::to_bits),
        record.rounds,
        record.deliveries,
        record.closed,
    )
}

/// The number of a refused feed, which gives zeros and the same record.
#[track_caller]
fn refused(record: &raw::Throughput, count: u32) -> u8 {
    let told = as_in_c::feed(record, count);
    assert_eq!((told.kind, told.rounds), (FED_REFUSED, 0));
    assert_eq!(told.rate.to_bits(), 0);
    assert_eq!(bits(&told.throughput), bits(record));
    told.refusal
}

#[test]
fn counts_of_5_260_and_65540_are_41() {
    for count in [5, 260, 65_540] {
        let new = raw::Throughput::default();
        assert_eq!(refused(&new, count), refusal::COUNT_TOO_HIGH);
    }
}

#[test]
fn by_its_open_window_a_record_is_30_before_41() {
    let window = |rounds, deliveries| raw::Throughput {
        rounds,
        deliveries,
        ..raw::Throughput::default()
    };
    assert_eq!(refused(&window(256, 0), 5), refusal::MALFORMED);
    assert_eq!(refused(&window(1, 5), 0), refusal::MALFORMED);
    let told = as_in_c::feed(&window(1, 4), 0);
    assert_eq!((told.refusal, told.rounds), (0, 2));
    assert_eq!(bits(&told.throughput), bits(&window(2, 4)));
}

#[test]
fn rates_that_are_30_and_1_of_256_accepted() {
    let rated = |last, closed| raw::Throughput {
        last,
        greatest: 4.0,
        closed,
        ..raw::Throughput::default()
    };
    for last in [-0.0, 1.0 / 512.0, 1_025.0 / 256.0, 5.0] {
        assert_eq!(refused(&rated(last, 1), 0), refusal::MALFORMED, "{last}");
    }
    // greatest is 4 before the first close
    assert_eq!(refused(&rated(0.0, 0), 0), refusal::MALFORMED);
    let told = as_in_c::feed(&rated(1.0 / 256.0, 1), 0);
    assert_eq!((told.refusal, told.rounds), (0, 1));
}

#[test]
fn two_canisters_a_window_with_2_deliveries_then_4_rounds() -> Result<(), Refusal> {
    let mut floor = two_with(5, 0, 0)?;
    floor.book(0, canister(6, 0, 40))?;
    let mut record = Throughput::new();
    for _ in 0..260 {
        let report = floor.round()?;
        for (_, numbers) in report.deliveries() {
            record.feed(numbers.len() as u32)?;
        }
    }
    let rate = Some(2.0 / 256.0);
    assert_eq!((record.last(), record.least()), (rate, rate));
    assert_eq!(record.greatest(), rate);
    assert_eq!((record.rounds(), record.deliveries()), (4, 0));
    Ok(())
}
