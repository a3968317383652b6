//! How a line, and the program, ended.

use std::process::ExitCode;

/// How a line ended, and the greatest of them the program. By rising number.
#[derive(Clone, Copy, PartialEq, Eq, PartialOrd, Ord, Debug, Default)]
pub enum Status {
    /// Read and accepted.
    #[default]
    Accepted,
    /// A call was refused, or not carried out for another reason.
    Refused,
    /// A line couldn't be read.
    Unreadable,
    /// A file, the input or the output couldn't be read or written.
    File,
    /// Ended by Ctrl-C where nobody types: 128 and the signal's number.
    Interrupted,
}

impl Status {
    /// The exit status.
    pub const fn code(self) -> u8 {
        match self {
            Status::Accepted => 0,
            Status::Refused => 1,
            Status::Unreadable => 2,
            Status::File => 3,
            Status::Interrupted => 130,
        }
    }

    /// The greater of the two.
    pub fn raise(&mut self, other: Status) {
        *self = other.max(*self);
    }
}

impl From<Status> for ExitCode {
    fn from(status: Status) -> ExitCode {
        ExitCode::from(status.code())
    }
}
