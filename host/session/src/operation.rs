//! A floor in operation.

use ceromby::{tiles, Fed, Floor, Report, Throughput, MAX_HOPPERS};

use crate::answer::{Closed, Round};

/// A floor, and what is counted of it since it came to its place: its rounds,
/// the throughput of each hopper, and the report of the last round.
#[derive(Clone, PartialEq, Debug)]
pub struct Operation {
    /// The floor.
    pub floor: Floor,
    /// Which run of calls it belongs to: `fresh` and `load` begin a new one, a
    /// move to or from the barge doesn't.
    pub run: u64,
    /// Rounds since it came to its place.
    pub rounds: u64,
    /// One record for each hopper, in tile order; the others aren't used.
    pub records: [Throughput; MAX_HOPPERS],
    /// Of the last round, if there was one.
    pub report: Option<Report>,
}

impl Operation {
    /// A floor that came to its place: no round was counted yet.
    pub fn new(floor: Floor, run: u64) -> Operation {
        Operation {
            floor,
            run,
            rounds: 0,
            records: Default::default(),
            report: None,
        }
    }

    /// Each hopper's tile with its record.
    pub fn throughput(&self) -> impl Iterator<Item = (u32, &Throughput)> {
        tiles(self.floor.settings().hoppers).zip(&self.records)
    }

    /// Counts a round of the floor that is already made.
    pub(crate) fn count(&mut self, report: Report) -> Round {
        self.rounds += 1;
        self.report = Some(report);
        let mut closed = Vec::new();
        for ((hopper, numbers), record) in report.deliveries().zip(&mut self.records) {
            // a report lists at most four numbers for a hopper, and records are sound: never refused
            let fed = record.feed(numbers.len() as u32);
            if let Ok(Fed::Closed { rate }) = fed {
                closed.push(Closed { hopper, rate });
            }
        }
        Round {
            number: self.rounds,
            report,
            closed,
            labels: Vec::new(),
        }
    }
}
