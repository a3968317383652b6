//! Commands of their own: the first word of the command line, where it is one.

use std::ffi::OsString;
use std::io::{self, Write};

use crate::options::{Usage, USAGE};
use crate::pictures::{DRAW, FIGURES};
use crate::replay::REPLAY;
use crate::status::Status;
use crate::terminal::unguarded;
use crate::{run, say};

/// A command.
#[derive(Debug)]
pub struct Subcommand {
    /// Its word.
    pub name: &'static str,
    /// Its arguments, and what it does.
    pub usage: &'static str,
    /// Carries it out, with the words after its own.
    pub run: fn(&[OsString]) -> Result<Status, Usage>,
}

/// All of them.
pub const ALL: &[&Subcommand] = &[&DRAW, &FIGURES, &REPLAY, &HELP, &VERSION];

/// The command of a word.
pub fn of(word: &str) -> Option<&'static Subcommand> {
    ALL.iter().copied().find(|command| command.name == word)
}

/// Says how the program is called.
pub const HELP: Subcommand = Subcommand {
    name: "help",
    usage: "help              this",
    run: |words| {
        none(words)?;
        let commands = ALL.iter().map(|command| format!("  {}\n", command.usage));
        Ok(print(&format!(
            "{USAGE}\ncommands:\n{}\nthe word help among the calls lists the calls\n",
            commands.collect::<String>()
        )))
    },
};

/// Says the versions of the program and of the library.
pub const VERSION: Subcommand = Subcommand {
    name: "version",
    usage: "version           of the program and of the library",
    run: |words| {
        none(words)?;
        let program = env!("CARGO_PKG_VERSION");
        let library = ceromby::version();
        let (major, minor, patch) = (library / 10_000, library / 100 % 100, library % 100);
        Ok(print(&format!(
            "ceromby {program}, library {major}.{minor}.{patch}\n"
        )))
    },
};

/// A command that takes no words.
fn none(words: &[OsString]) -> Result<(), Usage> {
    match words.first() {
        None => Ok(()),
        Some(word) => {
            let word = say::shown(word.as_encoded_bytes());
            Err(Usage(format!("{word} is a word too many")))
        }
    }
}

/// Writes text to standard output.
pub fn print(text: &str) -> Status {
    let written = unguarded(io::stdout()).and_then(|mut out| out.write_all(text.as_bytes()));
    match written {
        Ok(()) => Status::Accepted,
        Err(error) => run::failed(&error.into()),
    }
}
