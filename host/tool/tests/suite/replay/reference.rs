//! A list's calls made on a session, step by step, apart from the recording.

use std::collections::HashMap;
use std::path::PathBuf;

use ceromby_session::{Answer, Call, Denial, OnFloor, Session};
use ceromby_tool::line::{self, Command};

/// A step: whether it was accepted, the numbers it delivered with their hoppers,
/// and the session after it.
pub struct Step {
    pub accepted: bool,
    pub delivered: Vec<(i64, i64)>,
    pub session: Session,
}

/// What a line asks for.
pub enum Unit {
    Call(Call),
    Rounds(Option<u32>, u32),
    Load(PathBuf, bool),
    Save(PathBuf),
    UntilEmpty(Option<u32>),
    Denied,
}

/// The lines of a list.
pub fn units(list: &[u8]) -> Vec<Unit> {
    let mut units = Vec::new();
    let mut entries = None;
    for line in list.split(|byte| *byte == b'\n') {
        match line::command(line, entries.is_some()) {
            Ok(None) => {}
            Ok(Some(Command::Quit)) => break,
            Ok(Some(Command::Call(call))) => units.push(Unit::Call(call)),
            Ok(Some(Command::Load { file, give_up })) => units.push(Unit::Load(file, give_up)),
            Ok(Some(Command::Save(file))) => units.push(Unit::Save(file)),
            Ok(Some(Command::Rounds { floor, rounds })) => {
                units.push(Unit::Rounds(floor, rounds));
            }
            Ok(Some(Command::UntilEmpty { floor })) => units.push(Unit::UntilEmpty(floor)),
            Ok(Some(Command::BeginList)) => entries = Some(vec![]),
            Ok(Some(Command::ListEntry(booking))) => entries.as_mut().unwrap().push(booking),
            Ok(Some(Command::EndList)) => {
                units.push(Unit::Call(Call::BookList(entries.take().unwrap())));
            }
            Ok(Some(_)) => {}
            Err(_) => units.push(Unit::Denied),
        }
    }
    units
}

/// A session, the files that it saved, and its steps.
#[derive(Default)]
pub struct Run {
    pub session: Session,
    pub files: HashMap<PathBuf, Vec<u8>>,
    pub steps: Vec<Step>,
}

impl Run {
    /// Goes on from a step of this run.
    pub fn fork(&self, at: usize) -> Run {
        let session = match at.checked_sub(1) {
            None => Session::new(),
            Some(last) => self.steps[last].session.clone(),
        };
        Run {
            session,
            files: self.files.clone(),
            steps: vec![],
        }
    }

    pub fn all(&mut self, units: &[Unit]) {
        for unit in units {
            match unit {
                Unit::Call(call) => self.call(call),
                Unit::Load(file, give_up) => {
                    let (image, give_up) = (self.files[file].clone(), *give_up);
                    self.call(&Call::Load { image, give_up });
                }
                Unit::Save(file) => {
                    let image = self.session.hand().unwrap().floor.to_image().unwrap();
                    self.files.insert(file.clone(), image);
                }
                Unit::Rounds(floor, rounds) => self.rounds(*floor, *rounds),
                Unit::UntilEmpty(floor) => self.until_empty(*floor),
                Unit::Denied => self.push(false, vec![]),
            }
        }
    }

    pub fn call(&mut self, call: &Call) {
        let answer: Result<Answer, Denial> = self.session.call(call);
        let mut delivered = vec![];
        if let Ok(Answer::Round(round)) = &answer {
            for (hopper, numbers) in round.report.deliveries() {
                delivered.extend(
                    numbers
                        .iter()
                        .map(|number| (i64::from(*number), hopper.into())),
                );
            }
        }
        delivered.sort_unstable();
        let accepted = match &answer {
            Ok(Answer::Listed(entries)) => entries.iter().all(|entry| entry.answer == 0),
            other => other.is_ok(),
        };
        self.push(accepted, delivered);
    }

    /// None, or on a floor that isn't there, is a step too.
    fn rounds(&mut self, floor: Option<u32>, rounds: u32) {
        let there = has(&self.session, floor);
        if rounds == 0 || !there {
            self.push(there, vec![]);
            return;
        }
        for _ in 0..rounds {
            self.call(&line::on(floor, OnFloor::Round));
            if self.steps.last().is_some_and(|step| !step.accepted) {
                return;
            }
        }
    }

    fn until_empty(&mut self, floor: Option<u32>) {
        let connected = |session: &Session| {
            let there = floor.map_or(session.hand(), |floor| session.aboard(floor));
            there.map_or(0, |there| there.floor.bound().unwrap().connected)
        };
        if connected(&self.session) == 0 {
            self.push(has(&self.session, floor), vec![]);
        }
        while connected(&self.session) > 0 {
            self.call(&line::on(floor, OnFloor::Round));
        }
    }

    fn push(&mut self, accepted: bool, delivered: Vec<(i64, i64)>) {
        let session = self.session.clone();
        self.steps.push(Step {
            accepted,
            delivered,
            session,
        });
    }
}

fn has(session: &Session, floor: Option<u32>) -> bool {
    floor
        .map_or(session.hand(), |floor| session.aboard(floor))
        .is_some()
}
