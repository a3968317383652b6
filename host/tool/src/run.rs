//! The lines of an input, one after the other.

use std::ffi::OsString;
use std::fmt;
use std::fs::File;
use std::io::{self, BufRead, BufReader, IsTerminal, Write};
use std::path::Path;

use ceromby_session::json::Json;

use crate::backend::{Backend, Memory};
use crate::denied::Stop;
use crate::input::{Event, Line, Lines};
use crate::interrupt::Patient;
use crate::json::{self, Gathered};
use crate::kept::Kept;
use crate::line::{self, Command, Fault, Unreadable};
use crate::obey::Tool;
use crate::options::{self, Action, Options, USAGE};
use crate::output::{Output, Tone};
use crate::status::Status;
use crate::terminal::{unguarded, Screen};
use crate::{say, show};

const GREETING: &str = "ceromby: begin with fresh or load; help lists the calls, quit ends";

/// The program: does what the words after its name ask for.
pub fn program(words: impl IntoIterator<Item = OsString>) -> Status {
    let done = match options::action(words) {
        Ok(Action::Calls(options)) => Ok(match &options.store {
            None => calls(&options, Memory::new()),
            Some(store) => stored(&options, store),
        }),
        Ok(Action::Subcommand(command, words)) => (command.run)(&words),
        Err(usage) => Err(usage),
    };
    done.unwrap_or_else(|usage| {
        complain(format_args!("{usage}\n{USAGE}"));
        Status::Unreadable
    })
}

/// Obeys every line of the input on a store.
fn stored(options: &Options, store: &Path) -> Status {
    match Kept::open(store) {
        Ok((kept, new)) => {
            let name = say::path(store);
            if new {
                complain(format_args!("{name} is a new store"));
            } else if io::stderr().is_terminal() {
                complain(format_args!("{name}: {}", show::summary(kept.session())));
            }
            calls(options, kept)
        }
        Err(failure) => failed(&Stop::Store(failure)),
    }
}

/// Obeys every line of the input.
pub fn calls<B: Backend>(options: &Options, backend: B) -> Status {
    let input = match &options.file {
        None => unguarded(io::stdin()),
        Some(file) => File::open(file),
    };
    let input = match input {
        Ok(input) => BufReader::new(Patient(input)),
        Err(error) => return input_failed(&input_name(options), &error),
    };
    let screen = match Screen::new(options.file.is_none(), options.json) {
        Ok(screen) => screen,
        Err(error) => return failed(&Stop::Output(error)),
    };
    let mut run = Run {
        tool: Tool::new(backend),
        screen,
        options,
        lines: 0,
        status: Status::Accepted,
    };
    let stopped = run.all(Lines::new(input));
    let mut status = run.status;
    if let Err(stop) = stopped {
        status.raise(failed(&stop));
    }
    status
}

fn input_name(options: &Options) -> String {
    let name = options.file.as_deref().map(say::path);
    name.unwrap_or_else(|| "standard input".to_owned())
}

/// An input that can't be read.
pub fn input_failed(name: &str, error: &io::Error) -> Status {
    complain(format_args!("{name} can't be read: {}", say::cause(error)));
    Status::File
}

/// What ends the program is said, but not to whoever closed its pipe.
pub fn failed(stop: &Stop) -> Status {
    let closed = |error: &io::Error| error.kind() == io::ErrorKind::BrokenPipe;
    if !matches!(stop, Stop::Output(error) if closed(error)) {
        complain(format_args!("{stop}"));
    }
    Status::File
}

/// A message about the program itself; one that can't be written is lost.
pub fn complain(message: fmt::Arguments) {
    let _ = writeln!(io::stderr(), "ceromby: {message}");
}

/// Whether more lines are read.
#[derive(Clone, Copy, PartialEq, Eq)]
enum Next {
    Line,
    End,
}

struct Run<'a, B> {
    tool: Tool<B>,
    screen: Screen,
    options: &'a Options,
    lines: u64,
    status: Status,
}

impl<B: Backend> Run<'_, B> {
    fn all(&mut self, mut lines: Lines<impl BufRead>) -> Result<(), Stop> {
        if self.screen.is_interactive() {
            self.screen.line(GREETING)?;
        }
        loop {
            self.prompt()?;
            let next = match lines.next_event() {
                Ok(Event::Line(line)) => self.line(&line)?,
                Ok(Event::Interrupted) => self.interrupted()?,
                Ok(Event::End) => self.end()?,
                Err(error) => {
                    let failed = input_failed(&input_name(self.options), &error);
                    self.status.raise(failed);
                    Next::End
                }
            };
            if next == Next::End {
                return self.finish();
            }
        }
    }

    fn prompt(&mut self) -> io::Result<()> {
        match self.tool.listing() {
            None => self.screen.prompt("ceromby> "),
            Some(typed) => self.screen.prompt(&format!("list {}> ", typed + 1)),
        }
    }

    /// Ctrl-C while a line is awaited: ends a list, or where nobody types the
    /// program.
    fn interrupted(&mut self) -> Result<Next, Stop> {
        if !self.screen.is_interactive() {
            return Ok(self.stop());
        }
        self.screen.line("")?;
        self.screen.line(if self.tool.give_up_list() {
            "list: given up, nothing was sent"
        } else {
            "quit, or Ctrl-D, ends"
        })?;
        Ok(Next::Line)
    }

    fn stop(&mut self) -> Next {
        self.status.raise(Status::Interrupted);
        Next::End
    }

    /// The end of the input.
    fn end(&mut self) -> Result<Next, Stop> {
        if self.screen.is_interactive() {
            self.screen.line("")?;
        }
        Ok(Next::End)
    }

    fn line(&mut self, line: &Line) -> Result<Next, Stop> {
        self.lines += 1;
        if line.is_remark() {
            return Ok(Next::Line);
        }
        let command = match line.bytes() {
            Some(bytes) => line::command(bytes, self.tool.listing().is_some()),
            None => Err(Unreadable {
                fault: Fault::TooLong,
                expected: "a shorter line",
            }),
        };
        let (status, quit) = match command {
            Ok(None) => return Ok(Next::Line),
            Ok(Some(command)) => (self.obey(&command)?, command == Command::Quit),
            Err(fault) => (self.unreadable(line, &fault)?, false),
        };
        self.screen.settle()?;
        self.status.raise(status);
        // also where no call looked
        self.screen.interrupted();
        if self.screen.is_ended() {
            return Ok(self.stop());
        }
        let first = self.options.stop_at_first && status > Status::Accepted;
        Ok(if quit || first { Next::End } else { Next::Line })
    }

    fn obey(&mut self, command: &Command) -> Result<Status, Stop> {
        if !self.options.json {
            return Ok(self.tool.obey(command, &mut self.screen)?.status);
        }
        let mut gathered = Gathered::new(&mut self.screen);
        let reply = self.tool.obey(command, &mut gathered)?;
        let (status, text) = (reply.status, gathered.into_text());
        let object = json::obeyed(self.lines, command, reply, text);
        self.screen.line(object)?;
        Ok(status)
    }

    fn unreadable(&mut self, line: &Line, fault: &Unreadable) -> Result<Status, Stop> {
        let at = self.lines;
        let text = match line.bytes() {
            None => format!("line {at}: cannot read: {}", fault.fault),
            Some(bytes) => {
                let typed = say::shown(bytes);
                format!("line {at}: cannot read: {typed}: {fault}")
            }
        };
        self.say(Tone::Wrong, text, |line, text| {
            json::unreadable(line, fault, text)
        })?;
        Ok(Status::Unreadable)
    }

    /// A line that is no command's answer.
    fn say(
        &mut self,
        tone: Tone,
        text: String,
        object: impl FnOnce(u64, String) -> Json,
    ) -> io::Result<()> {
        if self.options.json {
            self.screen.line(object(self.lines, text))
        } else {
            self.screen.say(tone, format_args!("{text}"))
        }
    }

    /// A list that has no end isn't sent.
    fn finish(&mut self) -> Result<(), Stop> {
        if self.tool.listing().is_some() {
            let fault = Unreadable {
                fault: Fault::Missing("end"),
                expected: "end",
            };
            let text = "list: not sent, there is no end".to_owned();
            self.say(Tone::Wrong, text, |line, text| {
                json::unreadable(line, &fault, text)
            })?;
            self.status.raise(Status::Unreadable);
        }
        Ok(self.screen.settle()?)
    }
}
