//! Commands that were not carried out.

use std::fmt;
use std::io;
use std::path::Path;

use ceromby_session::{Call, Denial, Session};

use crate::backend::Failure;
use crate::say::{self, Subject};
use crate::status::Status;
use crate::why;

/// Why the program can't go on.
#[derive(Debug)]
pub enum Stop {
    /// Answers can't be written.
    Output(io::Error),
    /// The session can't be kept.
    Store(Failure),
}

impl From<io::Error> for Stop {
    fn from(error: io::Error) -> Stop {
        Stop::Output(error)
    }
}

impl fmt::Display for Stop {
    fn fmt(&self, f: &mut fmt::Formatter) -> fmt::Result {
        match self {
            Stop::Output(error) => {
                write!(f, "the output can't be written: {}", say::cause(error))
            }
            Stop::Store(failure) => failure.fmt(f),
        }
    }
}

impl std::error::Error for Stop {}

/// Why a command was not carried out.
#[derive(Debug)]
pub enum Ended {
    /// It was denied.
    Denied(Denied),
    /// A file can't be read or written.
    File(Unusable),
    /// The store didn't do it, by the command's word; how the line ends.
    Store(&'static str, Failure, Status),
    /// Nor will any other.
    Stop(Stop),
}

impl From<Denied> for Ended {
    fn from(denied: Denied) -> Ended {
        Ended::Denied(denied)
    }
}

impl From<io::Error> for Ended {
    fn from(error: io::Error) -> Ended {
        Ended::Stop(Stop::Output(error))
    }
}

impl Ended {
    /// By a failure, which ends the line alone or everything.
    pub fn by(word: &'static str, failure: Failure) -> Ended {
        match failure.passes() {
            Some(status) => Ended::Store(word, failure, status),
            None => Ended::Stop(Stop::Store(failure)),
        }
    }
}

/// A denial with the command that it is about, and what explains it. As text it
/// is the line that is answered.
#[derive(Clone, PartialEq, Eq, Debug)]
pub struct Denied {
    /// The barge's floor that the command names.
    pub floor: Option<u32>,
    /// Its word.
    pub word: &'static str,
    /// Why.
    pub denial: Denial,
    /// What the refusal is about.
    pub subject: Subject,
    /// Which measure, tile or canister it was.
    pub explained: Option<String>,
}

impl Denied {
    /// A call by its own word.
    pub fn call(session: &Session, call: &Call, denial: Denial) -> Denied {
        Denied {
            floor: call.on(),
            word: call.name(),
            denial,
            subject: Subject::of(call),
            explained: why::explain(session, call, &denial),
        }
    }

    /// A question about a floor, or rounds of one that isn't there.
    pub fn question(
        session: &Session,
        floor: Option<u32>,
        word: &'static str,
        denial: Denial,
    ) -> Denied {
        Denied {
            floor,
            word,
            denial,
            subject: Subject::Floor,
            explained: why::question(session, floor, &denial),
        }
    }
}

impl fmt::Display for Denied {
    fn fmt(&self, f: &mut fmt::Formatter) -> fmt::Result {
        let denied = say::denied(self.word, &self.denial, self.subject);
        write!(f, "{}{denied}", say::on(self.floor))?;
        match &self.explained {
            Some(explained) => write!(f, ": {explained}"),
            None => Ok(()),
        }
    }
}

/// A file that can't be read or written. As text it is the line that is
/// answered.
#[derive(Debug)]
pub struct Unusable {
    word: &'static str,
    name: String,
    how: &'static str,
    error: io::Error,
}

impl Unusable {
    /// By `load`.
    pub fn unread(file: &Path, error: io::Error) -> Ended {
        Ended::File(Unusable {
            word: "load",
            name: say::path(file),
            how: "read",
            error,
        })
    }

    /// By the command of that word.
    pub fn unwritten(word: &'static str, file: &Path, error: io::Error) -> Ended {
        Ended::File(Unusable {
            word,
            name: say::path(file),
            how: "written",
            error,
        })
    }
}

impl fmt::Display for Unusable {
    fn fmt(&self, f: &mut fmt::Formatter) -> fmt::Result {
        let Unusable {
            word, name, how, ..
        } = self;
        write!(
            f,
            "{word}: {name} can't be {how}: {}",
            say::cause(&self.error)
        )
    }
}
