//! Standard output, with colour, a prompt and a progress bar where it is a
//! terminal.

use std::env;
use std::fmt;
use std::fs::File;
use std::io::{self, BufWriter, IsTerminal, Write};
use std::os::fd::AsFd;
use std::time::{Duration, Instant};

use crate::interrupt;
use crate::output::{Output, Progress, Tone, Toward};

/// A call that takes longer gets a progress bar.
const PATIENCE: Duration = Duration::from_millis(300);
/// How often the bar is drawn.
const REDRAW: Duration = Duration::from_millis(100);
/// Rounds between two looks at the clock.
const ROUNDS_A_LOOK: u64 = 64;
const BAR_WIDTH: u64 = 30;

const CLEAR_LINE: &str = "\r\x1b[K";
const BOLD: &str = "\x1b[1m";
const PLAIN: &str = "\x1b[0m";

/// Standard output.
#[derive(Debug)]
pub struct Screen {
    out: BufWriter<File>,
    colour: bool,
    interactive: bool,
    bar: Option<Bar>,
    ended: bool,
}

/// A bar on standard error.
#[derive(Debug)]
struct Bar {
    begun: Instant,
    drawn: Option<Instant>,
}

impl Screen {
    /// Looks at what the program is connected to. `typed`: lines come from
    /// standard input. From here on Ctrl-C ends a call and not the program.
    pub fn new(typed: bool, json: bool) -> io::Result<Screen> {
        interrupt::watch();
        let out = unguarded(io::stdout())?;
        let to_terminal = out.is_terminal() && !json;
        Ok(Screen {
            colour: to_terminal && wants_colour(),
            interactive: to_terminal && typed && io::stdin().is_terminal(),
            bar: io::stderr().is_terminal().then(Bar::new),
            ended: false,
            out: BufWriter::new(out),
        })
    }

    /// Whether somebody types at a terminal and sees the answers there.
    pub fn is_interactive(&self) -> bool {
        self.interactive
    }

    /// Whether Ctrl-C ended a call where nobody types: the program ends then.
    pub fn is_ended(&self) -> bool {
        self.ended
    }

    /// A text, without a line's end, for whoever types; the flag of an earlier
    /// Ctrl-C is put down.
    pub fn prompt(&mut self, text: &str) -> io::Result<()> {
        if self.interactive {
            interrupt::pressed();
            let (on, off) = if self.colour { (BOLD, PLAIN) } else { ("", "") };
            write!(self.out, "{on}{text}{off}")?;
        }
        self.out.flush()
    }

    /// A line that is no answer: a greeting, or JSON.
    pub fn line(&mut self, text: impl fmt::Display) -> io::Result<()> {
        writeln!(self.out, "{text}")
    }

    /// The end of a call: the bar goes, what was said is seen.
    pub fn settle(&mut self) -> io::Result<()> {
        if let Some(bar) = &mut self.bar {
            bar.clear();
            *bar = Bar::new();
        }
        self.out.flush()
    }
}

/// A standard stream as a file. The standard library takes one that isn't open
/// for what is asked of it as empty, or as a place where all may be written.
pub fn unguarded(stream: impl AsFd) -> io::Result<File> {
    Ok(stream.as_fd().try_clone_to_owned()?.into())
}

fn wants_colour() -> bool {
    let set = |name| env::var_os(name).is_some_and(|value| !value.is_empty());
    !set("NO_COLOR") && env::var_os("TERM").is_some_and(|term| term != "dumb")
}

fn colour(tone: Tone) -> &'static str {
    match tone {
        Tone::Plain => "",
        Tone::Delivered => "\x1b[32m",
        Tone::Refused => "\x1b[33m",
        Tone::Wrong => "\x1b[31m",
    }
}

impl Output for Screen {
    fn say(&mut self, tone: Tone, line: fmt::Arguments) -> io::Result<()> {
        match colour(tone) {
            colour if self.colour && !colour.is_empty() => {
                writeln!(self.out, "{colour}{line}{PLAIN}")
            }
            _ => writeln!(self.out, "{line}"),
        }
    }

    fn progress(&mut self, progress: Progress) -> io::Result<()> {
        let Some(bar) = &mut self.bar else {
            return Ok(());
        };
        if progress.rounds % ROUNDS_A_LOOK != 0 || !bar.is_due() {
            return Ok(());
        }
        // lines first, where the bar was
        bar.clear();
        self.out.flush()?;
        bar.draw(progress);
        Ok(())
    }

    fn interrupted(&mut self) -> bool {
        let pressed = interrupt::pressed();
        self.ended |= pressed && !self.interactive;
        pressed
    }
}

impl Bar {
    fn new() -> Bar {
        Bar {
            begun: Instant::now(),
            drawn: None,
        }
    }

    fn is_due(&self) -> bool {
        match self.drawn {
            None => self.begun.elapsed() > PATIENCE,
            Some(drawn) => drawn.elapsed() > REDRAW,
        }
    }

    fn clear(&mut self) {
        if self.drawn.take().is_some() {
            to_stderr(CLEAR_LINE);
        }
    }

    fn draw(&mut self, progress: Progress) {
        self.drawn = Some(Instant::now());
        to_stderr(&bar(progress));
    }
}

/// A bar that can't be drawn is no reason to end.
fn to_stderr(text: &str) {
    let _ = io::stderr().write_all(text.as_bytes());
}

/// As `[#####.....] 500 of 1000 rounds; Ctrl-C ends it`.
fn bar(Progress { rounds, toward }: Progress) -> String {
    let (done, of, count) = match toward {
        Toward::Rounds(of) => (rounds, of, format!("{rounds} of {of} rounds")),
        Toward::Deliveries { made, of } => (
            made,
            of,
            format!("{made} of {of} delivered, {rounds} rounds"),
        ),
    };
    let full = done.saturating_mul(BAR_WIDTH) / of.max(1);
    let full = full.min(BAR_WIDTH) as usize;
    let (full, open) = ("#".repeat(full), ".".repeat(BAR_WIDTH as usize - full));
    format!("[{full}{open}] {count}; Ctrl-C ends it")
}
