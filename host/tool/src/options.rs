//! The command line.

use std::ffi::OsString;
use std::fmt;
use std::path::PathBuf;

use crate::say;
use crate::subcommands::{self, Subcommand};

/// How the program is called.
pub const USAGE: &str = "\
usage: ceromby [--store FILE] [--json] [--stop-at-first] [FILE]
       ceromby COMMAND [ARGUMENT ...]

FILE has calls, one on a line; without it, or with -, they come from standard
input. A file with a command's name is named as ./draw.

  --store FILE      the floors are kept in FILE, made if it isn't there: a call
                    whose answer is printed is durable
  --json            one JSON object for each line
  --stop-at-first   ends at the first line that isn't read and accepted
  --help, --version

exit status, the greatest that occurred: 0 every line read and accepted;
1 a call refused; 2 a line unreadable; 3 a file unreadable or unwritable;
130 ended by Ctrl-C
";

/// What the command line asks for.
#[derive(Debug)]
pub enum Action {
    /// The calls of an input.
    Calls(Options),
    /// A command of its own, with its arguments.
    Subcommand(&'static Subcommand, Vec<OsString>),
}

/// How the calls of an input are obeyed.
#[derive(Clone, PartialEq, Eq, Debug, Default)]
pub struct Options {
    /// One JSON object for each line.
    pub json: bool,
    /// Ends at the first line that isn't read and accepted.
    pub stop_at_first: bool,
    /// The file; none for standard input.
    pub file: Option<PathBuf>,
    /// The store; none for a session in memory.
    pub store: Option<PathBuf>,
}

/// A command line that can't be read.
#[derive(Clone, PartialEq, Eq, Debug)]
pub struct Usage(pub String);

impl fmt::Display for Usage {
    fn fmt(&self, f: &mut fmt::Formatter) -> fmt::Result {
        write!(f, "{}", self.0)
    }
}

impl std::error::Error for Usage {}

/// Reads the words after the program's own name.
pub fn action(words: impl IntoIterator<Item = OsString>) -> Result<Action, Usage> {
    let mut words = words.into_iter();
    let mut options = Options::default();
    let mut named = false;
    let mut plain = false;
    while let Some(word) = words.next() {
        match word.to_str() {
            Some("--") if !plain => plain = true,
            Some("--json") if !plain => options.json = true,
            Some("--stop-at-first") if !plain => options.stop_at_first = true,
            Some("--store") if !plain => {
                let file = words.next();
                let file = file.ok_or_else(|| Usage("--store names no file".to_owned()))?;
                options.store = Some(file.into());
            }
            Some("--help" | "-h") if !plain => {
                return Ok(Action::Subcommand(&subcommands::HELP, vec![]));
            }
            Some("--version" | "-V") if !plain => {
                return Ok(Action::Subcommand(&subcommands::VERSION, vec![]));
            }
            Some(option) if !plain && option.len() > 1 && option.starts_with('-') => {
                return Err(Usage(format!(
                    "{} is no option",
                    say::shown(option.as_bytes())
                )));
            }
            other => {
                let subcommand = other.filter(|_| !plain && !named).and_then(subcommands::of);
                if let Some(subcommand) = subcommand {
                    let words: Vec<_> = words.collect();
                    let asked = words.iter().any(|word| word == "--help" || word == "-h");
                    return Ok(match asked {
                        true => Action::Subcommand(&subcommands::HELP, vec![]),
                        false => Action::Subcommand(subcommand, words),
                    });
                }
                if named {
                    let word = say::shown(word.as_encoded_bytes());
                    return Err(Usage(format!("{word}: one file at a time")));
                }
                named = true;
                options.file = (word != "-").then(|| word.into());
            }
        }
    }
    Ok(Action::Calls(options))
}
