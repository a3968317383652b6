//! Where calls are made: in memory, or wherever a program keeps its session.

use std::collections::HashMap;
use std::error::Error;
use std::fmt;
use std::path::Path;

use ceromby_session::{Answer, Call, Denial, Round, Session};
use ceromby_store::Store;

use crate::status::Status;

/// What makes calls and keeps the session that they change.
pub trait Backend {
    /// Makes one call. A denied one leaves the session as it was; so does a
    /// failure, which no call may follow unless it says so.
    fn call(&mut self, call: &Call) -> Result<Result<Answer, Denial>, Failure>;

    /// Makes one call with a key of the caller's own. With a key that was given
    /// before, it gives what that call was answered, and its number.
    fn call_keyed(&mut self, _: &Call, _: &str) -> Result<(Answered, Option<u64>), Failure> {
        Err(no_store())
    }

    /// Looks again at what other programs may have changed.
    fn refresh(&mut self) -> Result<(), Failure> {
        Ok(())
    }

    /// Whether the session is kept in that file, which nothing else may replace.
    fn keeps(&self, _: &Path) -> bool {
        false
    }

    /// The session after all calls so far.
    fn session(&self) -> &Session;

    /// The store that the session is in.
    fn store(&mut self) -> Result<&mut Store, Failure> {
        Err(no_store())
    }

    /// Where a run's canister was delivered, if it is known.
    fn delivered(&self, run: u64, number: u32) -> Result<Option<Delivery>, Failure>;
}

/// What a call was answered.
pub type Answered = Result<Answer, Denial>;

fn no_store() -> Failure {
    Failure::passing(
        Status::Refused,
        "there is no store; ceromby --store FILE has one",
    )
}

/// The delivery of a canister.
#[derive(Clone, Copy, PartialEq, Eq, Debug)]
pub struct Delivery {
    /// The round, counted since the floor came to its place.
    pub round: u64,
    /// The hopper's tile.
    pub hopper: u32,
    /// The floor's number on the barge; none for the floor at hand.
    pub floor: Option<u32>,
}

/// What a session is kept in couldn't be read or written.
#[derive(Debug)]
pub struct Failure {
    cause: Box<dyn Error + Send + Sync>,
    /// How the line ends after which others are obeyed; none ends the program.
    passing: Option<Status>,
}

impl Failure {
    /// A failure with its cause, whose text says which file it was.
    pub fn new(cause: impl Into<Box<dyn Error + Send + Sync>>) -> Failure {
        Failure {
            cause: cause.into(),
            passing: None,
        }
    }

    /// A failure of this line alone.
    pub fn passing(status: Status, cause: impl Into<Box<dyn Error + Send + Sync>>) -> Failure {
        Failure {
            cause: cause.into(),
            passing: Some(status),
        }
    }

    /// How the line ends, if others may follow.
    pub fn passes(&self) -> Option<Status> {
        self.passing
    }
}

impl fmt::Display for Failure {
    fn fmt(&self, f: &mut fmt::Formatter) -> fmt::Result {
        self.cause.fmt(f)
    }
}

impl Error for Failure {
    fn source(&self) -> Option<&(dyn Error + 'static)> {
        self.cause.source()
    }
}

/// A session in memory, and what was delivered since it began.
#[derive(Debug, Default)]
pub struct Memory {
    session: Session,
    deliveries: HashMap<(u64, u32), Delivery>,
}

impl Memory {
    /// A session without a floor.
    pub fn new() -> Memory {
        Memory::default()
    }

    fn record(&mut self, floor: Option<u32>, round: &Round) {
        let Some(run) = operation_run(&self.session, floor) else {
            return;
        };
        for (hopper, numbers) in round.report.deliveries() {
            let delivery = Delivery {
                round: round.number,
                hopper,
                floor,
            };
            let keys = numbers.iter().map(|number| (run, *number));
            self.deliveries.extend(keys.map(|key| (key, delivery)));
        }
    }
}

/// The run of the floor at hand, or of the barge's floor of that number.
fn operation_run(session: &Session, floor: Option<u32>) -> Option<u64> {
    let operation = match floor {
        None => session.hand(),
        Some(floor) => session.aboard(floor),
    };
    operation.map(|operation| operation.run)
}

impl Backend for Memory {
    fn call(&mut self, call: &Call) -> Result<Result<Answer, Denial>, Failure> {
        let answer = self.session.call(call);
        if let Ok(Answer::Round(round)) = &answer {
            self.record(call.on(), round);
        }
        Ok(answer)
    }

    fn session(&self) -> &Session {
        &self.session
    }

    fn delivered(&self, run: u64, number: u32) -> Result<Option<Delivery>, Failure> {
        Ok(self.deliveries.get(&(run, number)).copied())
    }
}
