//! One hopper's rates.

use crate::raw::{self, Fed, FED_CLOSED};
use crate::refusal::{accepted, Refusal};

/// Deliveries at one hopper, over windows of 256 rounds. A record follows one
/// hopper: feed it that hopper's count of every round.
///
/// ```
/// use ceromby::{Fed, Refusal, Throughput};
///
/// # fn main() -> Result<(), Refusal> {
/// let mut record = Throughput::new();
/// for _ in 0..255 {
///     record.feed(1)?;
/// }
/// assert_eq!((record.rounds(), record.last()), (255, None));
/// assert_eq!(record.feed(3)?, Fed::Closed { rate: 258.0 / 256.0 });
/// assert_eq!(record.last(), Some(258.0 / 256.0));
/// assert_eq!(record.feed(5), Err(Refusal::CountTooHigh));
/// # Ok(())
/// # }
/// ```
#[derive(Clone, PartialEq, Debug, Default)]
pub struct Throughput {
    memory: raw::Throughput,
}

impl Throughput {
    /// A record that no round was fed to; the default.
    pub fn new() -> Throughput {
        Throughput::default()
    }

    /// Takes a round's count of deliveries at the hopper, 0 to 4. Refused by
    /// [`Refusal::CountTooHigh`].
    pub fn feed(&mut self, count: u32) -> Result<Fed, Refusal> {
        let told = raw::as_in_c::feed(&self.memory, count);
        accepted(told.refusal)?;
        self.memory = told.throughput;
        Ok(match told.kind {
            FED_CLOSED => Fed::Closed { rate: told.rate },
            _ => Fed::Open {
                rounds: told.rounds,
            },
        })
    }

    /// The rate of the last closed window, deliveries in a round: 0 to 4. None
    /// before the first close.
    pub fn last(&self) -> Option<f64> {
        self.has_closed().then_some(self.memory.last)
    }

    /// The least of all closed windows.
    pub fn least(&self) -> Option<f64> {
        self.has_closed().then_some(self.memory.least)
    }

    /// The greatest of all closed windows.
    pub fn greatest(&self) -> Option<f64> {
        self.has_closed().then_some(self.memory.greatest)
    }

    /// Whether a window has closed.
    pub fn has_closed(&self) -> bool {
        self.memory.closed != 0
    }

    /// Rounds of the open window, 0 to 255.
    pub fn rounds(&self) -> u16 {
        self.memory.rounds
    }

    /// Deliveries of the open window.
    pub fn deliveries(&self) -> u16 {
        self.memory.deliveries
    }

    /// As C gets it; what a program stores.
    pub fn as_raw(&self) -> &raw::Throughput {
        &self.memory
    }
}

/// Refused by [`Refusal::Malformed`] if it isn't sound.
impl TryFrom<raw::Throughput> for Throughput {
    type Error = Refusal;

    fn try_from(memory: raw::Throughput) -> Result<Throughput, Refusal> {
        // a count that is too high is tested after the record
        match raw::as_in_c::feed(&memory, u32::MAX).refusal {
            raw::refusal::COUNT_TOO_HIGH => Ok(Throughput { memory }),
            other => accepted(other).map(|()| Throughput { memory }),
        }
    }
}
