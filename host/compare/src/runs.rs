//! The four kinds of runs.

pub mod single;

use oracle::random::{self, Rng};
use oracle::{Canister, Floor, Settings, LONGEST_IMAGE, LONGEST_LIST};

use crate::blank;
use crate::book_lists;
use crate::call::{both, Call, Outcome, Trouble};
use crate::exchange;
use crate::first::First;
use crate::layouts;
use crate::promise::{self, Record};
use crate::tally::Tally;
use crate::{layout_damage, layout_images, makers};

/// A floor and the calls made from it on.
#[derive(Clone, PartialEq)]
pub struct Case {
    pub first: Floor,
    pub calls: Vec<Call>,
    /// Rounds follow until all that can go is delivered.
    pub drain: bool,
    /// The answer that every call must give.
    pub must: Option<u8>,
    /// Whether the first floor is to be taken as well formed.
    pub sound: bool,
    /// Neighbouring calls are also made in the other order.
    pub either: bool,
}

pub struct Failure {
    pub case: Case,
    pub trouble: Trouble,
}

/// A case being made.
struct Run<'a> {
    case: Case,
    floor: Floor,
    record: Record,
    tally: &'a mut Tally,
}

impl<'a> Run<'a> {
    fn of(case: Case, tally: &'a mut Tally) -> Run<'a> {
        if case.sound {
            tally.hoppers.note_floor(&case.first);
        }
        Run {
            floor: case.first,
            record: match case.sound {
                true => Record::of(&case.first),
                false => Record::of(&Floor::ZERO),
            },
            case,
            tally,
        }
    }

    fn make(&mut self, call: Call) -> Result<Outcome, Trouble> {
        let made = both(&self.floor, &call);
        self.tally.calls += 1;
        let outcome = match made {
            Ok(outcome) => outcome,
            Err(trouble) => {
                self.case.calls.push(call);
                return Err(trouble);
            }
        };
        self.tally.note(&self.floor, &call, &outcome);
        let floor = outcome.floor_after(&call, &self.floor);
        let judged = self.judge(&call, &outcome);
        self.floor = floor;
        self.case.calls.push(call);
        judged.map(|()| outcome)
    }

    fn judge(&mut self, call: &Call, outcome: &Outcome) -> Result<(), Trouble> {
        let refusal = outcome.refusal();
        let mut answers = outcome.answers();
        let must = self.case.must.map(|must| match call {
            Call::BookList { list } if list.len() > LONGEST_LIST => 42,
            _ => must,
        });
        let other = |answer: &u8| must.is_some_and(|must| *answer != must);
        if let Some(answer) = answers.find(other) {
            let text = format!("{} answers {answer} on a floor that is broken", call.name());
            return Err(Trouble::promise("known damage", text));
        }
        if let Call::Load { bytes } = call {
            blank::check(bytes, outcome)?;
            judge_load(bytes, refusal)?;
            layout_images::check(bytes, outcome)?;
        }
        if !self.case.sound {
            return Ok(());
        }
        // Before the first accepted fresh floor there is none.
        let malformed = !call.takes_a_plan() && outcome.answers().any(|answer| answer == 30);
        if malformed && self.floor != Floor::ZERO {
            let text = format!("{} finds the floor of a list malformed", call.name());
            return Err(Trouble::promise("well formed", text));
        }
        self.record.note(&self.floor, call, outcome, self.tally)
    }

    /// Makes calls in either order from the floor of the moment, which stays.
    fn exchange(&mut self, calls: Vec<Call>) -> Result<(), Trouble> {
        match exchange::check(&self.floor, &calls) {
            Ok(Some(met)) => {
                self.tally.calls += met.calls(calls.len());
                self.tally.exchanges.note(met, calls.len());
            }
            Ok(None) => {}
            Err(trouble) => {
                self.case.first = self.floor;
                self.case.calls = calls;
                self.case.either = true;
                return Err(trouble);
            }
        }
        Ok(())
    }

    /// Holds the floor to its bound, if that is at most so many rounds.
    fn drain(&mut self, rng: &mut Rng, most: u64) -> Result<(), Trouble> {
        if promise::bound_of(&self.floor) > most {
            return Ok(());
        }
        let mut calls = Vec::new();
        let between = |floor: &Floor| match rng.below(16) {
            0 | 1 => Some(random::refused_call(rng, floor).into()),
            2 => Some(random::still_call(rng, floor).into()),
            _ => None,
        };
        let drained = promise::drain(&self.floor, self.tally, &mut calls, between);
        self.case.drain = calls.is_empty();
        self.case.calls.append(&mut calls);
        drained?;
        self.tally.drained += 1;
        Ok(())
    }

    /// Cuts the case down to its last call, for trouble with what was counted
    /// over all of them.
    fn last_alone(&mut self) {
        let before = self.case.calls.len().saturating_sub(1);
        self.case.calls.drain(..before);
        self.case.first = self.floor;
    }

    fn demand_3(&mut self) -> Result<(), Trouble> {
        match self.case.sound {
            true => self.record.check(&self.floor),
            false => Ok(()),
        }
    }

    /// Demand 3, and the bound of the floor of the moment.
    fn check(&mut self) -> Result<(), Trouble> {
        self.demand_3()?;
        self.bound()
    }

    /// The bound of the floor of the moment, which stays. Not one of the calls
    /// that are counted, so that those are as many as without it.
    fn bound(&mut self) -> Result<(), Trouble> {
        let calls = self.tally.calls;
        self.make(Call::Bound)?;
        self.tally.calls = calls;
        self.case.calls.pop();
        Ok(())
    }

    /// Writes the floor and loads what was written, which gives it again. False
    /// if the write is refused: then nothing was written and nothing is loaded.
    fn store(&mut self, size: usize) -> Result<bool, Trouble> {
        let floor = self.floor;
        let written = self.make(Call::Write { size })?;
        let Some(bytes) = written.image().map(<[u8]>::to_vec) else {
            return Ok(false);
        };
        match self.make(Call::Load { bytes })?.refusal() == 0 && self.floor == floor {
            true => Ok(true),
            false => {
                let text = "what was written loads as another floor".into();
                Err(Trouble::promise("round trip", text))
            }
        }
    }
}

/// Holds the answer of a load to what the image's first record asks for.
fn judge_load(bytes: &[u8], refusal: u8) -> Result<(), Trouble> {
    let Some(first) = First::of(bytes) else {
        return Ok(());
    };
    let fits = match first.due() {
        Some(due) => refusal == due,
        None => ![1, 2].contains(&refusal),
    };
    match fits {
        true => Ok(()),
        false => {
            let text = format!("load answers {refusal} against the first record");
            Err(Trouble::promise("first record", text))
        }
    }
}

/// Makes a case again; demand 3 is checked after every call.
pub fn replay(case: &Case) -> Option<Trouble> {
    let mut tally = Tally::new();
    let empty = Case {
        calls: Vec::new(),
        ..case.clone()
    };
    let mut run = Run::of(empty, &mut tally);
    for (at, call) in case.calls.iter().enumerate() {
        let turned = match case.either {
            true => exchange::check(&run.floor, &case.calls[at..]).err(),
            false => None,
        };
        if turned.is_some() {
            return turned;
        }
        let made = run.make(call.clone()).map(|_| ());
        if let Err(trouble) = made.and_then(|()| run.demand_3()) {
            return Some(trouble);
        }
    }
    let floor = run.floor;
    match case.drain && oracle::well_formed(&floor) {
        true => promise::drain(&floor, &mut tally, &mut Vec::new(), |_| None).err(),
        false => None,
    }
}

/// The floor before the last call of a case.
pub fn before_last(case: &Case) -> Floor {
    let mut floor = case.first;
    let before = case.calls.len().saturating_sub(1);
    for call in &case.calls[..before] {
        if let Ok(outcome) = both(&floor, call) {
            floor = outcome.floor_after(call, &floor);
        }
    }
    floor
}

fn begin(first: Floor, sound: bool, must: Option<u8>) -> Case {
    Case {
        first,
        calls: Vec::new(),
        drain: false,
        must,
        sound,
        either: false,
    }
}

/// Turns the steps' trouble into a failure with its case.
fn finish(
    case: Case,
    tally: &mut Tally,
    steps: impl FnOnce(&mut Run) -> Result<(), Trouble>,
) -> Result<(), Box<Failure>> {
    let mut run = Run::of(case, tally);
    match steps(&mut run) {
        Ok(()) => Ok(()),
        Err(trouble) => Err(Box::new(Failure {
            case: run.case,
            trouble,
        })),
    }
}

/// A call of a list: mostly one that a list of the paper holds.
fn list_call(rng: &mut Rng, floor: &Floor) -> Call {
    match rng.below(20) {
        0 => makers::any_call(rng, floor),
        1 => Call::Read {
            tile: random::any_tile(rng, floor),
        },
        2 => makers::writing(rng, floor),
        3 => makers::loading(rng, floor),
        _ => makers::call(rng, floor),
    }
}

/// A fresh floor and a long list of calls.
pub fn list(rng: &mut Rng, tally: &mut Tally) -> Result<(), Box<Failure>> {
    finish(begin(Floor::ZERO, true, None), tally, |run| {
        for _ in 0..rng.below(4) {
            let settings = random::any_settings(rng);
            run.make(Call::Fresh { settings })?;
        }
        let settings = list_settings(rng);
        if run.make(Call::Fresh { settings })?.refusal() != 0 {
            let text = "good settings are refused".into();
            return Err(Trouble::promise("fresh", text));
        }
        for at in 0..rng.range(20, 600) {
            let floor = run.floor;
            run.make(list_call(rng, &floor))?;
            if at % 16 == 0 {
                run.check()?;
            }
        }
        run.check()?;
        run.tally.lists += 1;
        run.drain(rng, 3_000)
    })
}

/// Settings with many fill tiles, so that a list fills its floor.
fn list_settings(rng: &mut Rng) -> Settings {
    let mut settings = random::settings(rng);
    if rng.chance(3, 4) {
        settings.sources = settings.all_tiles() & !settings.hoppers;
    }
    settings
}

fn arbitrary_floor(rng: &mut Rng) -> Floor {
    match rng.below(12) {
        0 => makers::packed_floor(rng),
        1 => makers::facing_floor(rng),
        2 => makers::delivering_floor(rng),
        3 => makers::nearly_full_floor(rng),
        _ => random::floor(rng),
    }
}

/// An arbitrary well-formed floor and a few calls.
pub fn arbitrary(rng: &mut Rng, tally: &mut Tally) -> Result<(), Box<Failure>> {
    let first = arbitrary_floor(rng);
    finish(begin(first, true, None), tally, |run| {
        run.bound()?;
        for _ in 0..rng.range(1, 20) {
            let floor = run.floor;
            run.make(makers::any_call(rng, &floor))?;
        }
        run.check()
    })
}

/// A floor with damage, and whether it is certain to be malformed.
fn damaged_floor(rng: &mut Rng, tally: &mut Tally) -> (Floor, bool) {
    match rng.below(10) {
        0 => return (random::garbage_floor(rng), false),
        1..=3 => return (random::nearly_sound_floor(rng), false),
        _ => {}
    }
    let in_layouts = rng.chance(1, 4);
    loop {
        let mut floor = random::floor(rng);
        if in_layouts {
            if let Some(kind) = layout_damage::damage(rng, &mut floor) {
                tally.layouts.damage.0[kind] += 1;
                return (floor, true);
            }
        } else if makers::known_damage(rng, &mut floor) {
            return (floor, true);
        }
    }
}

/// A floor damaged in memory, and every call that takes one.
pub fn damaged(rng: &mut Rng, tally: &mut Tally) -> Result<(), Box<Failure>> {
    let (first, known) = damaged_floor(rng, tally);
    tally.known_damage += u64::from(known);
    finish(begin(first, false, known.then_some(30)), tally, |run| {
        let tile = match rng.chance(1, 4) {
            true => rng.draw() as u32,
            false => random::any_tile(rng, &first),
        };
        let canister = Canister {
            number: first.counters.last.saturating_add(rng.below(2) as u32),
            a: rng.range(0, first.settings.span().into()) as u16,
            b: rng.range(0, first.settings.span().into()) as u16,
        };
        let name = layouts::any_name(rng, &first);
        let length = match rng.below(16) {
            0..=11 => rng.below(4) as usize,
            12 => LONGEST_LIST,
            _ => rng.range(65, 70) as usize,
        };
        let list = book_lists::list_of(rng, &first, length);
        let calls = [
            Call::Book { tile, canister },
            Call::BookAnywhere {
                tile,
                number: canister.number,
            },
            Call::Stop { tile },
            Call::Repair { tile },
            Call::Round,
            Call::Read { tile },
            Call::Write {
                size: rng.pick(&[0, 64, LONGEST_IMAGE]),
            },
            Call::Keep { name: name.clone() },
            Call::Forget { name: name.clone() },
            Call::Recall { name },
            list,
        ];
        for call in calls {
            run.floor = first;
            run.case.calls.clear();
            run.make(call)?;
        }
        run.floor = first;
        run.case.calls.clear();
        run.bound()
    })
}

/// An image, good or damaged; if it loads, it is written again. That gives the
/// same bytes, unless there were none: those of the standard floor then.
pub fn image(rng: &mut Rng, floor: &Floor, tally: &mut Tally) -> Result<(), Box<Failure>> {
    let Some(good) = makers::image(floor) else {
        return refused_write(floor, tally);
    };
    let mut bytes = good.clone();
    if rng.chance(9, 10) {
        crate::images::damage(rng, &mut bytes);
    }
    match bytes == good {
        true => tally.good_images += 1,
        false => tally.damaged_images += 1,
    }
    let calls = tally.calls;
    let made = finish(begin(Floor::ZERO, true, None), tally, |run| {
        let call = Call::Load {
            bytes: bytes.clone(),
        };
        if run.make(call)?.refusal() != 0 {
            return Ok(());
        }
        let size = bytes.len();
        let again = run.make(Call::Write { size })?;
        let fits = match bytes.is_empty() {
            true => again.refusal() == 13 && run.store(LONGEST_IMAGE)?,
            false => again.image() == Some(&bytes),
        };
        match fits {
            true => Ok(()),
            false => Err(Trouble::promise("round trip", "other bytes again".into())),
        }
    });
    if made.is_ok() {
        tally.calls = calls;
    }
    made
}

/// A well-formed floor without an image: trouble.
fn refused_write(floor: &Floor, tally: &mut Tally) -> Result<(), Box<Failure>> {
    finish(begin(*floor, true, None), tally, |run| {
        let size = LONGEST_IMAGE;
        run.make(Call::Write { size }).map(drop)
    })
}
