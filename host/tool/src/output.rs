//! Where answers go.

use std::fmt;
use std::io;

/// What a line of an answer is about; a terminal may colour it.
#[derive(Clone, Copy, PartialEq, Eq, Debug)]
pub enum Tone {
    /// What was done or asked.
    Plain,
    /// A delivery.
    Delivered,
    /// A call that was refused or not carried out.
    Refused,
    /// A line that can't be read, a file that can't be read or written.
    Wrong,
}

/// How far a long call is.
#[derive(Clone, Copy, PartialEq, Eq, Debug)]
pub struct Progress {
    /// Rounds so far.
    pub rounds: u64,
    /// What the call ends with.
    pub toward: Toward,
}

/// What a long call ends with.
#[derive(Clone, Copy, PartialEq, Eq, Debug)]
pub enum Toward {
    /// So many rounds.
    Rounds(u64),
    /// So many deliveries.
    Deliveries {
        /// Made so far.
        made: u64,
        /// To be made.
        of: u64,
    },
}

/// Takes the lines of answers, shows how far a call is, and knows whether it is
/// to end early.
pub trait Output {
    /// One line.
    fn say(&mut self, tone: Tone, line: fmt::Arguments) -> io::Result<()>;

    /// Called in every round of a long call.
    fn progress(&mut self, progress: Progress) -> io::Result<()>;

    /// Whether the call is to end early; says so once.
    fn interrupted(&mut self) -> bool;
}
