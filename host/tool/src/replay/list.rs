//! The lines of a list.

use std::io::{self, BufRead};

use ceromby::{Booking, LONGEST_LIST};

use crate::input::{self, Event, Lines};
use crate::line::{self, Command, Fault};
use crate::say;

/// A line of a list.
#[derive(Clone, PartialEq, Debug)]
pub struct Line {
    /// Its number in the list, from 1.
    pub number: usize,
    /// As it was typed.
    pub text: String,
    /// What it asks for.
    pub work: Work,
}

/// What a line asks for.
#[derive(Clone, PartialEq, Debug)]
pub enum Work {
    /// One command.
    Command(Command),
    /// A list of bookings, all its lines. One more than a list may have is kept,
    /// so that the library refuses it.
    List(Vec<Booking>),
    /// It can't be read, for this reason.
    Unreadable(String),
}

/// Reads a list up to its end or to `quit`. Remarks and questions are passed
/// over.
pub fn read(source: impl BufRead) -> io::Result<Vec<Line>> {
    let mut lines = Lines::new(source);
    let mut reader = Reader::default();
    loop {
        match lines.next_event()? {
            Event::Line(line) if !reader.line(&line) => return Ok(reader.end()),
            Event::Line(_) | Event::Interrupted => {}
            Event::End => return Ok(reader.end()),
        }
    }
}

#[derive(Default)]
struct Reader {
    number: usize,
    list: Vec<Line>,
    /// The bookings of a list that is begun.
    entries: Option<Vec<Booking>>,
}

impl Reader {
    /// Takes a line; false at `quit`.
    fn line(&mut self, line: &input::Line) -> bool {
        self.number += 1;
        if line.is_remark() {
            return true;
        }
        let Some(bytes) = line.bytes() else {
            self.unreadable(String::new(), &Fault::TooLong);
            return true;
        };
        let text = say::shown(bytes);
        match line::command(bytes, self.entries.is_some()) {
            Ok(None) => {}
            Ok(Some(Command::Quit)) => return false,
            Ok(Some(command)) => self.command(text, command),
            Err(unreadable) => self.unreadable(text, &unreadable),
        }
        true
    }

    fn command(&mut self, text: String, command: Command) {
        match command {
            Command::BeginList => self.entries = Some(Vec::new()),
            Command::ListEntry(booking) => {
                let entries = self.entries.get_or_insert_with(Vec::new);
                if entries.len() <= LONGEST_LIST {
                    entries.push(booking);
                }
            }
            Command::EndList => {
                let entries = self.entries.take().unwrap_or_default();
                let text = format!("list of {}", say::counted(entries.len() as u64, "booking"));
                self.push(text, Work::List(entries));
            }
            Command::Call(_)
            | Command::Load { .. }
            | Command::Save(_)
            | Command::Rounds { .. }
            | Command::UntilEmpty { .. } => self.push(text, Work::Command(command)),
            // questions change nothing
            _ => {}
        }
    }

    fn unreadable(&mut self, text: String, why: &impl std::fmt::Display) {
        self.push(text, Work::Unreadable(format!("cannot read: {why}")));
    }

    fn push(&mut self, text: String, work: Work) {
        let number = self.number;
        self.list.push(Line { number, text, work });
    }

    /// A list of bookings without an end isn't sent.
    fn end(mut self) -> Vec<Line> {
        if self.entries.is_some() {
            let why = "list: not sent, there is no end";
            self.push(String::new(), Work::Unreadable(why.to_owned()));
        }
        self.list
    }
}
