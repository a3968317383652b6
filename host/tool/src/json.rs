//! What a line asked and gave, as one JSON object.

use std::fmt::{self, Write};
use std::io;

use ceromby_session::json::{self, Json};
use ceromby_session::Call;

use crate::line::{Command, Question, Unreadable};
use crate::obey::Reply;
use crate::output::{Output, Progress, Tone};
use crate::say;
use crate::status::Status;
use crate::terminal::Screen;

/// Gathers what is said, to be told in an object.
#[derive(Debug)]
pub struct Gathered<'a> {
    screen: &'a mut Screen,
    text: String,
}

impl<'a> Gathered<'a> {
    /// Nothing said yet.
    pub fn new(screen: &'a mut Screen) -> Gathered<'a> {
        Gathered {
            screen,
            text: String::new(),
        }
    }

    /// All lines that were said.
    pub fn into_text(self) -> String {
        self.text
    }
}

impl Output for Gathered<'_> {
    fn say(&mut self, _: Tone, line: fmt::Arguments) -> io::Result<()> {
        if !self.text.is_empty() {
            self.text.push('\n');
        }
        self.text.write_fmt(line).map_err(io::Error::other)
    }

    fn progress(&mut self, progress: Progress) -> io::Result<()> {
        self.screen.progress(progress)
    }

    fn interrupted(&mut self) -> bool {
        self.screen.interrupted()
    }
}

/// A line that was obeyed.
pub fn obeyed(line: u64, command: &Command, reply: Reply, text: String) -> Json {
    let refusal = reply.refusal.map(|refusal| refusal.number());
    let mut fields = vec![
        ("line", line.into()),
        ("call", command.word().into()),
        ("arguments", arguments(command)),
        ("status", reply.status.code().into()),
        ("refusal", refusal.map_or(Json::Null, Json::from)),
        ("text", Json::Text(text)),
        ("gave", reply.gave),
    ];
    fields.extend(reply.repeated.map(|call| ("repeated", call.into())));
    Json::Object(fields)
}

/// A line that can't be read.
pub fn unreadable(line: u64, fault: &Unreadable, text: String) -> Json {
    let word = fault.fault.word().map_or(Json::Null, Json::from);
    Json::Object(vec![
        ("line", line.into()),
        ("call", Json::Null),
        ("arguments", Json::Null),
        ("status", Status::Unreadable.code().into()),
        ("refusal", Json::Null),
        ("text", Json::Text(text)),
        ("gave", Json::Null),
        ("word", word),
        ("expected", fault.expected.into()),
    ])
}

fn arguments(command: &Command) -> Json {
    match command {
        Command::Call(call) => json::arguments(call),
        Command::ListEntry(booking) => json::arguments(&Call::Book {
            tile: booking.tile,
            canister: booking.canister,
        }),
        Command::Keyed(key, command) => match arguments(command) {
            Json::Object(mut fields) => {
                fields.push(("key", key.as_str().into()));
                Json::Object(fields)
            }
            other => other,
        },
        other => Json::Object(fields(other)),
    }
}

fn fields(command: &Command) -> Vec<(&'static str, Json)> {
    match command {
        Command::Load { file, give_up } => vec![
            ("file", Json::Text(say::path(file))),
            ("give_up", Json::Bool(*give_up)),
        ],
        Command::Save(file) | Command::Draw(file) => vec![("file", Json::Text(say::path(file)))],
        Command::Rounds { floor, rounds } => on(*floor, vec![("rounds", (*rounds).into())]),
        Command::UntilEmpty { floor } => on(*floor, vec![]),
        Command::Ask { floor, question } => on(*floor, asked(*question)),
        Command::Where { floor, number } => on(*floor, vec![("number", (*number).into())]),
        Command::History(last) | Command::Delivered(last) => vec![("last", (*last).into())],
        Command::Trim(day) => vec![("day", day.as_str().into())],
        Command::Help(Some(form)) => vec![("call", form.word.into())],
        _ => vec![],
    }
}

fn asked(question: Question) -> Vec<(&'static str, Json)> {
    match question {
        Question::Read(tile) => vec![("tile", tile.into())],
        _ => vec![],
    }
}

fn on(floor: Option<u32>, fields: Vec<(&'static str, Json)>) -> Vec<(&'static str, Json)> {
    let floor = floor.map(|floor| ("on", Json::from(floor)));
    floor.into_iter().chain(fields).collect()
}
