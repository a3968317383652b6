//! Commands on a backend and an output of the test's own.

use std::fmt;
use std::io;

use ceromby_session::{Answer, Call, Denial, Session};
use ceromby_tool::backend::{Backend, Delivery, Failure, Memory};
use ceromby_tool::denied::Stop;
use ceromby_tool::line;
use ceromby_tool::obey::{Reply, Tool};
use ceromby_tool::output::{Output, Progress, Tone};
use ceromby_tool::status::Status;

use crate::common::PAIR;

/// Gathers lines; ends calls after so many rounds; takes so many lines.
struct Gathered {
    lines: Vec<(Tone, String)>,
    rounds: u64,
    room: usize,
}

impl Gathered {
    fn new() -> Gathered {
        Gathered {
            lines: Vec::new(),
            rounds: u64::MAX,
            room: usize::MAX,
        }
    }
}

impl Output for Gathered {
    fn say(&mut self, tone: Tone, line: fmt::Arguments) -> io::Result<()> {
        if self.lines.len() == self.room {
            return Err(io::Error::other("no room"));
        }
        self.lines.push((tone, line.to_string()));
        Ok(())
    }

    fn progress(&mut self, _: Progress) -> io::Result<()> {
        self.rounds -= 1;
        Ok(())
    }

    fn interrupted(&mut self) -> bool {
        self.rounds == 0
    }
}

fn obey<B: Backend>(tool: &mut Tool<B>, out: &mut Gathered, lines: &str) -> Result<Reply, Stop> {
    let mut last = None;
    for line in lines.lines() {
        let command = line::command(line.as_bytes(), tool.listing().is_some());
        let command = command.unwrap().expect("a command");
        last = Some(tool.obey(&command, out)?);
    }
    Ok(last.expect("a line"))
}

#[test]
fn until_empty_can_be_interrupted_and_says_what_is_on_the_way() {
    let mut tool = Tool::new(Memory::new());
    let mut out = Gathered::new();
    out.rounds = 3;
    let lines =
        "fresh 4 1 0 all 100 30 10 20\nbook 3 7\nbook 2 8\nstop 2\nbook 1 9 60 0\nuntil empty";
    obey(&mut tool, &mut out, lines).unwrap();
    let said: Vec<&str> = out.lines[5..]
        .iter()
        .map(|(_, line)| line.as_str())
        .collect();
    assert_eq!(
        said,
        [
            "until: 3 rounds done, interrupted, now at round 3; 3 canisters left",
            "      tile 1: 9: on the way",
            "      tile 2: 8: the tile is stopped",
            "      tile 3: 7: no live path to a hopper",
        ]
    );
    assert_eq!(tool.session().hand().unwrap().rounds, 3);
}

#[test]
fn lines_have_the_tone_of_what_they_say() {
    let mut tool = Tool::new(Memory::new());
    let mut out = Gathered::new();
    let lines = format!("{PAIR}book 0 1\nstop 1\nrounds 4\nload no/such\nround");
    obey(&mut tool, &mut out, &lines).unwrap();
    let tones: Vec<Tone> = out.lines.iter().map(|(tone, _)| *tone).collect();
    assert_eq!(
        tones,
        [
            Tone::Plain,
            Tone::Plain,
            Tone::Refused,
            Tone::Delivered,
            Tone::Plain,
            Tone::Wrong,
            Tone::Plain
        ]
    );
}

/// A backend that fails after so many calls.
struct Failing(Memory, u32);

impl Backend for Failing {
    fn call(&mut self, call: &Call) -> Result<Result<Answer, Denial>, Failure> {
        match self.1.checked_sub(1) {
            Some(left) => self.1 = left,
            None => return Err(Failure::new("the disk is gone")),
        }
        self.0.call(call)
    }

    fn session(&self) -> &Session {
        self.0.session()
    }

    fn delivered(&self, run: u64, number: u32) -> Result<Option<Delivery>, Failure> {
        self.0.delivered(run, number)
    }
}

#[test]
fn a_backend_that_fails_ends_a_call_and_the_rounds_in_it() {
    for (calls, lines) in [(0, PAIR), (3, &format!("{PAIR}rounds 9"))] {
        let mut tool = Tool::new(Failing(Memory::new(), calls));
        let stop = obey(&mut tool, &mut Gathered::new(), lines).unwrap_err();
        assert_eq!(stop.to_string(), "the disk is gone");
    }
}

#[test]
fn an_output_that_fails_ends_a_call_and_the_rounds_in_it() {
    let mut out = Gathered::new();
    out.room = 2;
    let mut tool = Tool::new(Memory::new());
    let lines = format!("{PAIR}book 0 1\nrounds 100000");
    let stop = obey(&mut tool, &mut out, &lines).unwrap_err();
    assert!(matches!(stop, Stop::Output(_)), "{stop}");
    assert_eq!(tool.session().hand().unwrap().rounds, 4);
}

#[test]
fn a_reply_tells_how_a_command_ended() {
    let mut tool = Tool::new(Memory::new());
    let mut status = |lines: &str| {
        let reply = obey(&mut tool, &mut Gathered::new(), lines).unwrap();
        (reply.status, reply.refusal.map(|refusal| refusal.number()))
    };
    assert_eq!(status("round"), (Status::Refused, None));
    assert_eq!(status(PAIR), (Status::Accepted, None));
    assert_eq!(status("stop 1"), (Status::Refused, Some(8)));
    assert_eq!(status("load no/such"), (Status::File, None));
}
