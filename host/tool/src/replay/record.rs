//! The calls of a list, made one after the other and recorded step by step.

use std::collections::HashMap;
use std::fmt::Write;
use std::path::{Path, PathBuf};

use ceromby::{Booking, Floor, Settings, FLOORS};
use ceromby_session::json::Json;
use ceromby_session::{Answer, Call, Denial, OnFloor, Operation, Session};

use super::difference::{Difference, View};
use super::list::{Line, Work};
use crate::backend::{Backend, Delivery, Failure};
use crate::line::{self, Command};
use crate::obey::{Tool, MOST_ROUNDS};
use crate::output::{Output, Progress, Tone};
use crate::show;
use crate::status::Status;

/// How a step ended.
#[derive(Clone, Copy, PartialEq, Eq, Debug)]
pub enum Outcome {
    /// Accepted.
    Accepted,
    /// Refused, or not carried out for another reason.
    Denied,
    /// The line couldn't be read.
    Unreadable,
}

/// One call, one round, or a line that couldn't be read.
#[derive(Clone, PartialEq, Debug)]
pub struct Step {
    /// Which line of the list; none for the call of a branch.
    pub line: Option<usize>,
    /// How it ended.
    pub outcome: Outcome,
    /// The answer.
    pub words: String,
    /// Which floor is shown: 0 the one at hand, 1 to 4 those of the barge.
    pub shown: usize,
    /// Rounds of that floor since it came to its place.
    pub rounds: u64,
    /// What changed.
    pub change: Change,
}

impl Step {
    /// How many canisters it delivered.
    pub fn delivered(&self) -> usize {
        match &self.change {
            Change::Difference(_, difference) => difference.delivered(),
            Change::Places(_) => 0,
        }
    }

    /// Writes it as JSON, an object.
    pub fn write(&self, out: &mut String, scenes: &[Settings]) {
        let line = self.line.map_or("null".to_owned(), |line| line.to_string());
        let _ = write!(
            out,
            "{{\"l\":{line},\"x\":{}",
            Json::from(self.words.as_str())
        );
        match self.outcome {
            Outcome::Accepted => {}
            Outcome::Denied => *out += ",\"k\":1",
            Outcome::Unreadable => *out += ",\"k\":2",
        }
        if self.shown != 0 {
            let _ = write!(out, ",\"v\":{}", self.shown);
        }
        match &self.change {
            Change::Difference(_, difference) => difference.write(out),
            Change::Places(places) if places.is_empty() => {}
            Change::Places(places) => write_places(out, places, scenes),
        }
        out.push('}');
    }
}

fn write_places(
    out: &mut String,
    places: &[(usize, Option<View>, Option<View>)],
    scenes: &[Settings],
) {
    *out += ",\"f\":[";
    for (at, (place, before, after)) in places.iter().enumerate() {
        let comma = if at == 0 { "" } else { "," };
        let _ = write!(out, "{comma}[{place}");
        for view in [before, after] {
            out.push(',');
            match view {
                None => *out += "null",
                Some(view) => {
                    let scene = scenes
                        .iter()
                        .position(|settings| *settings == view.settings);
                    view.write(scene.unwrap_or(0), out);
                }
            }
        }
        out.push(']');
    }
    out.push(']');
}

/// What a step changed.
#[derive(Clone, PartialEq, Debug)]
pub enum Change {
    /// Of the floor at a place, which is shown.
    Difference(usize, Difference),
    /// Floors came, went or were moved: place, before and after.
    Places(Vec<(usize, Option<View>, Option<View>)>),
}

/// The floor at hand and the barge's.
const PLACES: usize = 1 + FLOORS;

/// A page holds fewer steps than this.
pub const MOST_STEPS: usize = 100_000;

/// A session, and what is recorded of its steps.
#[derive(Clone, Default)]
pub struct Recorder {
    session: Session,
    views: [Option<View>; PLACES],
    shown: usize,
    /// What was saved: a replay writes no file.
    files: HashMap<PathBuf, Vec<u8>>,
    steps: Vec<Step>,
}

/// Where a recording is in its list: after so many steps of a line.
#[derive(Clone, Copy, PartialEq, Eq, Debug, Default)]
pub struct Position {
    /// Which line.
    pub line: usize,
    /// Steps of it that are made.
    pub done: u32,
}

impl Recorder {
    /// The same session, with no step recorded yet.
    pub fn fork(&self) -> Recorder {
        Recorder {
            session: self.session.clone(),
            views: self.views.clone(),
            shown: self.shown,
            files: self.files.clone(),
            steps: Vec::new(),
        }
    }

    /// The session after all steps so far.
    pub fn session(&self) -> &Session {
        &self.session
    }

    /// The steps so far.
    pub fn steps(&self) -> &[Step] {
        &self.steps
    }

    /// Makes the calls of a list from a position on; `made` is called after each
    /// step with the position behind it.
    pub fn run(
        &mut self,
        list: &[Line],
        from: Position,
        mut made: impl FnMut(&Recorder, Position),
    ) {
        for (line, what) in list.iter().enumerate().skip(from.line) {
            let mut done = if line == from.line { from.done } else { 0 };
            while self.steps.len() < MOST_STEPS && self.advance(line, &what.work, done) {
                done += 1;
                made(self, Position { line, done });
            }
        }
    }

    /// One more step of a line, of which so many are made; whether there was one.
    fn advance(&mut self, line: usize, work: &Work, done: u32) -> bool {
        let line = Some(line);
        match work {
            // a round that was denied isn't tried again
            _ if done > 0 && self.last_was_denied(line) => false,
            Work::Command(Command::Rounds { floor, rounds }) if self.runs(*floor, *rounds) => {
                done < *rounds && self.round(line, *floor)
            }
            Work::Command(Command::UntilEmpty { floor }) if self.connected(*floor) > 0 => {
                self.round(line, *floor);
                self.end(*floor);
                true
            }
            _ if done > 0 => false,
            Work::Command(Command::Save(file)) => self.save(file),
            Work::Command(command) => match self.saved(command) {
                Some(load) => self.call(line, load),
                None => self.obey(line, std::slice::from_ref(command)),
            },
            Work::List(entries) => self.obey(line, &list_commands(entries)),
            Work::Unreadable(why) => self.remark(line, Outcome::Unreadable, why.clone()),
        }
    }

    /// Whether so many rounds are made one by one: a floor is there, and the tool
    /// would make them.
    fn runs(&self, floor: Option<u32>, rounds: u32) -> bool {
        (1..=MOST_ROUNDS).contains(&rounds) && show::operation(&self.session, floor).is_ok()
    }

    fn last_was_denied(&self, line: Option<usize>) -> bool {
        let last = self.steps.last().filter(|step| step.line == line);
        last.is_some_and(|step| step.outcome != Outcome::Accepted)
    }

    fn round(&mut self, line: Option<usize>, floor: Option<u32>) -> bool {
        let call = line::on(floor, OnFloor::Round);
        self.obey(line, &[Command::Call(call)])
    }

    /// Canisters that have a way to a hopper.
    fn connected(&self, floor: Option<u32>) -> u32 {
        let operation = show::operation(&self.session, floor).ok();
        let bound = operation.and_then(|there| there.floor.bound().ok());
        bound.map_or(0, |bound| bound.connected)
    }

    /// After the last of the rounds until a floor is empty, says what is left.
    fn end(&mut self, floor: Option<u32>) {
        if self.connected(floor) > 0 {
            return;
        }
        let (Ok(there), Some(step)) =
            (show::operation(&self.session, floor), self.steps.last_mut())
        else {
            return;
        };
        let left = show::left(&there.floor);
        step.words += match left.is_empty() {
            true => "\nuntil: the floor is empty",
            false => "\nuntil: left are",
        };
        for left in left {
            let _ = write!(step.words, "\n{}", left.line());
        }
    }

    /// The load of a floor that was saved here.
    fn saved(&self, command: &Command) -> Option<Call> {
        let Command::Load { file, give_up } = command else {
            return None;
        };
        Some(Call::Load {
            image: self.files.get(file)?.clone(),
            give_up: *give_up,
        })
    }

    /// Keeps the floor for a load of the same name. No step.
    fn save(&mut self, file: &Path) -> bool {
        let floor = self.session.hand().map(|hand| &hand.floor);
        if let Some(Ok(image)) = floor.map(Floor::to_image) {
            self.files.insert(file.to_owned(), image);
        }
        false
    }

    /// Records a step that changed nothing. True, for a step that was made.
    fn remark(&mut self, line: Option<usize>, outcome: Outcome, words: String) -> bool {
        self.push(line, outcome, words, Change::Places(Vec::new()))
    }

    /// Makes one call, as a step. True, for a step that was made.
    pub fn call(&mut self, line: Option<usize>, call: Call) -> bool {
        self.obey(line, &[Command::Call(call)])
    }

    /// Obeys commands, all of them one step. True, for a step that was made.
    fn obey(&mut self, line: Option<usize>, commands: &[Command]) -> bool {
        let mut words = Words::default();
        let before = self.session.clone();
        let mut tool = Tool::new(Lent(&mut self.session));
        let mut status = Status::Accepted;
        for command in commands {
            // a session in memory can be kept, and words are gathered: never an error
            match tool.obey(command, &mut words) {
                Ok(reply) => status.raise(reply.status),
                Err(stop) => words.0.push_str(&stop.to_string()),
            }
        }
        let outcome = match status {
            Status::Accepted => Outcome::Accepted,
            _ => Outcome::Denied,
        };
        let change = self.change(&before);
        self.shown = self.to_show(&change, commands);
        self.push(line, outcome, words.0, change)
    }

    fn push(
        &mut self,
        line: Option<usize>,
        outcome: Outcome,
        words: String,
        change: Change,
    ) -> bool {
        let shown = operation(&self.session, self.shown);
        self.steps.push(Step {
            line,
            outcome,
            words,
            shown: self.shown,
            rounds: shown.map_or(0, |there| there.rounds),
            change,
        });
        true
    }

    /// What differs from the session before: floors that came, went or were moved,
    /// or else what changed of the one floor that was called.
    fn change(&mut self, before: &Session) -> Change {
        let mut places = Vec::new();
        for place in 0..PLACES {
            let (old, new) = (operation(before, place), operation(&self.session, place));
            if old == new {
                continue;
            }
            let view = new.map(View::of);
            let old_view = std::mem::replace(&mut self.views[place], view.clone());
            match (old, new, &old_view, &view) {
                (Some(old), Some(new), Some(from), Some(to)) if old.run == new.run => {
                    let report = new.report.filter(|_| new.rounds > old.rounds);
                    let difference = Difference::between(from, to, report.as_ref());
                    return Change::Difference(place, difference);
                }
                _ => places.push((place, old_view, view)),
            }
        }
        Change::Places(places)
    }

    /// The floor to show: the one that changed or came; the one of the barge that
    /// was named; else the one at hand, or where there is none what was shown.
    fn to_show(&self, change: &Change, commands: &[Command]) -> usize {
        let came = match change {
            Change::Difference(place, _) => Some(*place),
            Change::Places(places) => {
                let mut came = places.iter().filter(|(_, _, after)| after.is_some());
                came.next().map(|(place, _, _)| *place)
            }
        };
        let named = commands.iter().find_map(|command| match command {
            Command::Call(call) => call.on().map(|floor| 1 + floor as usize),
            _ => None,
        });
        let there = |place: &usize| operation(&self.session, *place).is_some();
        let likely = [came, named, Some(0), Some(self.shown)];
        likely.into_iter().flatten().find(there).unwrap_or(0)
    }
}

/// The floor at a place: 0 the one at hand, 1 to 4 those of the barge.
fn operation(session: &Session, place: usize) -> Option<&Operation> {
    match place.checked_sub(1) {
        None => session.hand(),
        Some(floor) => session.aboard(u32::try_from(floor).ok()?),
    }
}

/// A list of bookings as it is typed.
fn list_commands(entries: &[Booking]) -> Vec<Command> {
    let entries = entries.iter().copied().map(Command::ListEntry);
    let begun = std::iter::once(Command::BeginList).chain(entries);
    begun.chain([Command::EndList]).collect()
}

/// A recorder's session, as the tool calls it.
struct Lent<'a>(&'a mut Session);

impl Backend for Lent<'_> {
    fn call(&mut self, call: &Call) -> Result<Result<Answer, Denial>, Failure> {
        Ok(self.0.call(call))
    }

    fn session(&self) -> &Session {
        self.0
    }

    fn delivered(&self, _: u64, _: u32) -> Result<Option<Delivery>, Failure> {
        Ok(None)
    }
}

/// The lines of an answer.
#[derive(Default)]
struct Words(String);

impl Output for Words {
    fn say(&mut self, _: Tone, line: std::fmt::Arguments) -> std::io::Result<()> {
        if !self.0.is_empty() {
            self.0.push('\n');
        }
        self.0.write_fmt(line).map_err(std::io::Error::other)
    }

    fn progress(&mut self, _: Progress) -> std::io::Result<()> {
        Ok(())
    }

    fn interrupted(&mut self) -> bool {
        false
    }
}
