//! `ceromby replay` and the words after it.

use std::ffi::OsString;
use std::fs::File;
use std::io::{self, BufRead, BufReader};
use std::path::{Path, PathBuf};

use super::list;
use super::{Replay, WhatIf};
use crate::line::{self, Command};
use crate::options::Usage;
use crate::run;
use crate::say;
use crate::subcommands::{self, Subcommand};

/// Writes the page of a list.
pub const REPLAY: Subcommand = Subcommand {
    name: "replay",
    usage: "replay [LIST]     a page in which a list of calls is played\n\
            \x20                   --what-if CALL --at STEP ...: beside it, what a call after that step does",
    run: |words| {
        let asked = Asked::read(words)?;
        let input: Box<dyn BufRead> = match &asked.list {
            None => Box::new(io::stdin().lock()),
            Some(list) => match File::open(list) {
                Ok(file) => Box::new(BufReader::new(file)),
                Err(error) => return Ok(run::input_failed(&asked.name(), &error)),
            },
        };
        let lines = match list::read(input) {
            Ok(lines) => lines,
            Err(error) => return Ok(run::input_failed(&asked.name(), &error)),
        };
        let replay = Replay::record(&asked.name(), &asked.command(), lines, &asked.what_ifs)?;
        Ok(subcommands::print(&replay.html()))
    },
};

/// What the words ask for.
#[derive(Debug, Default, PartialEq)]
struct Asked {
    list: Option<PathBuf>,
    what_ifs: Vec<WhatIf>,
}

impl Asked {
    fn read(words: &[OsString]) -> Result<Asked, Usage> {
        let mut asked = Asked::default();
        let mut named = false;
        let mut words = words.iter();
        while let Some(word) = words.next() {
            match word.to_str() {
                Some("--what-if") => asked.what_ifs.push(what_if(&mut words)?),
                Some("--at") => return Err(Usage("--at comes after --what-if CALL".to_owned())),
                Some(option) if option.len() > 1 && option.starts_with('-') => {
                    let option = say::shown(option.as_bytes());
                    return Err(Usage(format!("{option} is no option of replay")));
                }
                _ if named => {
                    let word = say::shown(word.as_encoded_bytes());
                    return Err(Usage(format!("{word}: one list at a time")));
                }
                _ => {
                    named = true;
                    asked.list = (word != "-").then(|| word.into());
                }
            }
        }
        Ok(asked)
    }

    fn name(&self) -> String {
        let name = self.list.as_deref().map(say::path);
        name.unwrap_or_else(|| "standard input".to_owned())
    }

    /// The command that makes this page, as a shell reads it.
    fn command(&self) -> String {
        let list = self.list.as_deref().map(quoted);
        let what_ifs = self.what_ifs.iter().map(|what_if| {
            let WhatIf { text, at, .. } = what_if;
            format!(" --what-if \"{text}\" --at {at}")
        });
        let list = list.map_or_else(String::new, |list| format!(" {list}"));
        format!("ceromby replay{list}{}", what_ifs.collect::<String>())
    }
}

/// A call and its `--at STEP`.
fn what_if<'a>(words: &mut impl Iterator<Item = &'a OsString>) -> Result<WhatIf, Usage> {
    let text = words.next().map(|word| say::shown(word.as_encoded_bytes()));
    let text = text.ok_or_else(|| Usage("--what-if needs a call".to_owned()))?;
    let call = match line::command(text.as_bytes(), false) {
        Ok(Some(Command::Call(call))) => call,
        Ok(_) => return Err(Usage(format!("--what-if: {text} is no single call"))),
        Err(fault) => return Err(Usage(format!("--what-if: {fault}"))),
    };
    let at = match words.next() {
        Some(word) if word == "--at" => words.next().and_then(|word| word.to_str()?.parse().ok()),
        _ => None,
    };
    let at = at.ok_or_else(|| Usage(format!("--what-if \"{text}\" needs --at STEP")))?;
    let text = call.to_string();
    Ok(WhatIf { text, call, at })
}

/// A file's name as a shell reads it.
fn quoted(file: &Path) -> String {
    let name = say::path(file);
    let plain = |c: char| c.is_ascii_alphanumeric() || "-_./".contains(c);
    match name.chars().all(plain) {
        true => name,
        false => format!("'{}'", name.replace('\'', "'\\''")),
    }
}
