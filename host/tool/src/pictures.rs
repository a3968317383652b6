//! `ceromby draw` and `ceromby figures`.

use std::ffi::OsString;
use std::io::{self, IsTerminal, Write};
use std::path::PathBuf;
use std::str::FromStr;

use ceromby::Floor;

use crate::options::Usage;
use crate::status::Status;
use crate::subcommands::{self, Subcommand};
use crate::{draw, figures, files, run, say};

/// Draws the floor of an image.
pub const DRAW: Subcommand = Subcommand {
    name: "draw",
    usage: "draw [FILE]       the floor of an image as SVG",
    run: |words| {
        let file = image_file(words)?;
        let name = file.as_ref().map(|file| say::path(file));
        let name = name.unwrap_or_else(|| "standard input".to_owned());
        let image = match file {
            Some(file) => files::read(&file),
            None => files::image(io::stdin().lock()),
        };
        Ok(match image {
            Ok(image) => drawn(&name, &image),
            Err(error) => run::input_failed(&name, &error),
        })
    },
};

/// The one word of `draw`.
fn image_file(words: &[OsString]) -> Result<Option<PathBuf>, Usage> {
    match words {
        [] => Ok(None),
        [word] if word == "-" => Ok(None),
        [word] if word.as_encoded_bytes().starts_with(b"-") => Err(no_option(word, "draw")),
        [word] => Ok(Some(word.into())),
        [_, word, ..] => Err(too_many(word)),
    }
}

fn drawn(name: &str, image: &[u8]) -> Status {
    if image.is_empty() {
        run::complain(format_args!("{name} is empty: this is the standard floor"));
    }
    match Floor::load(image) {
        Ok(floor) => subcommands::print(&draw::svg(&floor)),
        Err(refusal) => {
            run::complain(format_args!(
                "{name}: refused {}: {refusal}",
                refusal.number()
            ));
            Status::Refused
        }
    }
}

/// Measures document 000's figures.
pub const FIGURES: Subcommand = Subcommand {
    name: "figures",
    usage: "figures DIR [--rounds K] [--seed N] [--small]   document 000's figures, as CSV and SVG",
    run: |words| {
        let asked = Asked::read(words)?;
        let shown = io::stderr().is_terminal();
        let mut progress = |done: usize, of: usize| {
            if shown {
                // a bar that can't be written is lost
                let _ = write!(io::stderr(), "\r\x1b[K{done} of {of} runs");
            }
        };
        let made = figures::run(&asked.dir, &asked.options, &mut progress);
        if shown {
            let _ = write!(io::stderr(), "\r\x1b[K");
        }
        Ok(match made {
            Ok(files) => {
                let lines = files.iter().map(|file| format!("{}\n", say::path(file)));
                subcommands::print(&lines.collect::<String>())
            }
            Err(error @ figures::Error::Refused(_)) => {
                run::complain(format_args!("{error}"));
                Status::Refused
            }
            Err(error) => {
                run::complain(format_args!("{error}"));
                Status::File
            }
        })
    },
};

/// What the words of `figures` ask for.
struct Asked {
    dir: PathBuf,
    options: figures::Options,
}

impl Asked {
    fn read(words: &[OsString]) -> Result<Asked, Usage> {
        let mut dir = None;
        let mut options = figures::Options::default();
        let mut words = words.iter();
        while let Some(word) = words.next() {
            match word.to_str() {
                Some("--small") => options.small = true,
                Some("--rounds") => options.rounds = Some(number("--rounds K", words.next())?),
                Some("--seed") => options.seed = number("--seed N", words.next())?,
                Some(option) if option.starts_with('-') => {
                    return Err(no_option(word, "figures"));
                }
                _ if dir.is_some() => return Err(too_many(word)),
                _ => dir = Some(PathBuf::from(word)),
            }
        }
        let dir = dir.ok_or_else(|| Usage("figures needs a directory".to_owned()))?;
        Ok(Asked { dir, options })
    }
}

fn number<N: FromStr>(option: &str, word: Option<&OsString>) -> Result<N, Usage> {
    let number = word.and_then(|word| word.to_str()?.parse().ok());
    number.ok_or_else(|| Usage(format!("{option} needs a number")))
}

fn no_option(word: &OsString, command: &str) -> Usage {
    let word = say::shown(word.as_encoded_bytes());
    Usage(format!("{word} is no option of {command}"))
}

fn too_many(word: &OsString) -> Usage {
    let word = say::shown(word.as_encoded_bytes());
    Usage(format!("{word} is a word too many"))
}
