//! Many rounds in one call.

use std::io;

use ceromby_session::json::{self, Json};
use ceromby_session::{Answer, Closed, Denial, OnFloor, Round};

use crate::backend::{Backend, Failure};
use crate::line;
use crate::output::{Output, Progress, Tone, Toward};
use crate::say;

/// When rounds end.
#[derive(Clone, Copy, PartialEq, Eq, Debug)]
pub enum Goal {
    /// After so many.
    Rounds(u64),
    /// After so many deliveries, at the latest after so many rounds.
    Deliveries {
        /// How many canisters.
        canisters: u64,
        /// The proved bound.
        at_most: u64,
    },
}

/// Why a round wasn't made.
#[derive(Debug)]
pub enum Cut {
    /// It was denied.
    Denied(Denial),
    /// What the session is kept in failed.
    Failed(Failure),
}

/// What many rounds gave.
#[derive(Debug, Default)]
pub struct Ran {
    /// How many were gone.
    pub rounds: u64,
    /// How many canisters were delivered.
    pub delivered: u64,
    /// Ended early by the user.
    pub interrupted: bool,
    /// Why the next round wasn't made.
    pub cut: Option<Cut>,
    /// Whatever rounds delivered, closed or marked.
    events: Vec<Json>,
    windows: Windows,
}

impl Goal {
    fn is_reached(self, ran: &Ran) -> bool {
        match self {
            Goal::Rounds(rounds) => ran.rounds >= rounds,
            Goal::Deliveries { canisters, at_most } => {
                ran.delivered >= canisters || ran.rounds >= at_most
            }
        }
    }

    fn progress(self, ran: &Ran) -> Progress {
        let toward = match self {
            Goal::Rounds(rounds) => Toward::Rounds(rounds),
            Goal::Deliveries { canisters, .. } => Toward::Deliveries {
                made: ran.delivered,
                of: canisters,
            },
        };
        Progress {
            rounds: ran.rounds,
            toward,
        }
    }
}

/// Goes rounds until the goal is reached, a round is denied or the user ends it,
/// and tells those that deliver or close a window.
pub fn run<B: Backend>(
    backend: &mut B,
    floor: Option<u32>,
    several: bool,
    goal: Goal,
    out: &mut dyn Output,
) -> io::Result<Ran> {
    let call = line::on(floor, OnFloor::Round);
    let mut teller = Teller::new(floor, several, out);
    let mut ran = Ran::default();
    while !goal.is_reached(&ran) {
        if teller.out.interrupted() {
            ran.interrupted = true;
            break;
        }
        match backend.call(&call) {
            Ok(Ok(Answer::Round(round))) => ran.add(&round, &mut teller)?,
            Ok(Ok(_)) => {}
            Ok(Err(denial)) => {
                ran.cut = Some(Cut::Denied(denial));
                break;
            }
            Err(failure) => {
                ran.cut = Some(Cut::Failed(failure));
                break;
            }
        }
        teller.out.progress(goal.progress(&ran))?;
    }
    ran.windows.tell_more(&mut teller)?;
    Ok(ran)
}

/// All that is told of a single round.
pub fn tell(
    floor: Option<u32>,
    round: &Round,
    several: bool,
    out: &mut dyn Output,
) -> io::Result<()> {
    let mut teller = Teller::new(floor, several, out);
    teller.delivered(round)?;
    teller.closed(round)
}

impl Ran {
    fn add(&mut self, round: &Round, teller: &mut Teller) -> io::Result<()> {
        self.rounds += 1;
        let delivered = round.report.delivered().count() as u64;
        self.delivered += delivered;
        if delivered > 0 {
            teller.delivered(round)?;
        }
        self.windows.add(round, teller)?;
        if delivered > 0 || !round.closed.is_empty() {
            let answer = Answer::Round(round.clone());
            self.events.push(json::answer(&answer));
        }
        Ok(())
    }

    /// What is told of it in every case; the floor's rounds are `now`.
    pub fn fields(self, now: u64) -> Vec<(&'static str, Json)> {
        vec![
            ("rounds", self.rounds.into()),
            ("round", now.into()),
            ("delivered", self.delivered.into()),
            ("interrupted", Json::Bool(self.interrupted)),
            ("events", Json::List(self.events)),
        ]
    }
}

/// Tells of one floor's rounds.
struct Teller<'a> {
    on: String,
    several: bool,
    out: &'a mut dyn Output,
}

impl<'a> Teller<'a> {
    fn new(floor: Option<u32>, several: bool, out: &'a mut dyn Output) -> Teller<'a> {
        Teller {
            on: say::on(floor),
            several,
            out,
        }
    }

    fn say(&mut self, tone: Tone, line: &str) -> io::Result<()> {
        self.out.say(tone, format_args!("{}{line}", self.on))
    }

    /// What a round delivered, and the labels of the plan among it.
    fn delivered(&mut self, round: &Round) -> io::Result<()> {
        let any = round.report.delivered().next().is_some();
        let tone = if any { Tone::Delivered } else { Tone::Plain };
        for line in say::delivered(round, self.several) {
            self.say(tone, &line)?;
        }
        for label in &round.labels {
            self.say(tone, &format!("plan: label {label} delivered"))?;
        }
        Ok(())
    }

    /// The windows that a round closed.
    fn closed(&mut self, round: &Round) -> io::Result<()> {
        for closed in &round.closed {
            self.say(
                Tone::Plain,
                &say::window(round.number, closed, self.several),
            )?;
        }
        Ok(())
    }
}

/// The windows that closed: those at the rates of the last one shown are counted
/// and shown together.
#[derive(Debug, Default)]
struct Windows {
    shown: Vec<Closed>,
    more: u64,
    up_to: u64,
}

impl Windows {
    fn add(&mut self, round: &Round, teller: &mut Teller) -> io::Result<()> {
        if round.closed.is_empty() {
            return Ok(());
        }
        if round.closed == self.shown {
            self.more += 1;
            self.up_to = round.number;
            return Ok(());
        }
        self.tell_more(teller)?;
        self.shown = round.closed.clone();
        teller.closed(round)
    }

    fn tell_more(&mut self, teller: &mut Teller) -> io::Result<()> {
        if self.more > 0 {
            let line = say::same_windows(self.more, self.up_to, teller.several);
            teller.say(Tone::Plain, &line)?;
        }
        self.more = 0;
        Ok(())
    }
}
