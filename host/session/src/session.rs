//! The floor at hand, its plan, and the barge.

use ceromby::{Barge, Booking, Canister, Entry, Floor, Plan, Refusal, Report, FLOORS, MAX_ENTRIES};

use crate::answer::{Answer, Denial};
use crate::call::{Call, OnFloor};
use crate::operation::Operation;

/// The floor at hand with its plan, and a barge with room for four floors.
///
/// What isn't there is `None`: every call on a barge is refused by
/// [`Refusal::Malformed`] until it has four floors and an allowance of 1 to
/// 4,032.
#[derive(Clone, PartialEq, Debug, Default)]
pub struct Session {
    hand: Option<Box<Operation>>,
    plan: Plan,
    barge: [Option<Box<Operation>>; FLOORS],
    allowance: u32,
    /// How many runs were begun.
    runs: u64,
}

impl Session {
    /// No floor at hand, no plan, an empty barge with allowance 0.
    pub fn new() -> Session {
        Session::default()
    }

    /// A session as it was when its parts were read from another one.
    pub fn resume(
        hand: Option<Operation>,
        plan: Plan,
        barge: [Option<Operation>; FLOORS],
        allowance: u32,
        runs: u64,
    ) -> Session {
        Session {
            hand: hand.map(Box::new),
            plan,
            barge: barge.map(|floor| floor.map(Box::new)),
            allowance,
            runs,
        }
    }

    /// The floor at hand.
    pub fn hand(&self) -> Option<&Operation> {
        self.hand.as_deref()
    }

    /// The plan for the floor at hand.
    pub fn plan(&self) -> &Plan {
        &self.plan
    }

    /// The barge's floor of that number, if it has one.
    pub fn aboard(&self, floor: u32) -> Option<&Operation> {
        self.barge.get(floor as usize)?.as_deref()
    }

    /// How many canisters may be on the barge's floors together.
    pub fn allowance(&self) -> u32 {
        self.allowance
    }

    /// How many runs `fresh` and `load` have begun; the newest has this number.
    pub fn runs(&self) -> u64 {
        self.runs
    }

    /// Makes one call. Denied, the session is as it was.
    pub fn call(&mut self, call: &Call) -> Result<Answer, Denial> {
        match call {
            Call::Fresh { settings, give_up } => self.begin(Floor::fresh(*settings)?, *give_up),
            Call::Load { image, give_up } => self.begin(Floor::load(image)?, *give_up),
            Call::Book { tile, canister } => {
                let (tile, canister) = (*tile, *canister);
                self.floor()?.book(tile, canister)?;
                Ok(Answer::Booked { tile, canister })
            }
            Call::BookAnywhere { tile, number } => {
                let place = self.floor()?.book_anywhere(*tile, *number)?;
                let canister = Canister::new(*number, place.a, place.b);
                Ok(Answer::Booked {
                    tile: *tile,
                    canister,
                })
            }
            Call::BookList(list) => self.book_list(list),
            Call::Stop(tile) => done(self.floor()?.stop(*tile)),
            Call::Repair(tile) => done(self.floor()?.repair(*tile)),
            Call::Keep(name) => done(self.floor()?.keep(*name)),
            Call::Recall(name) => done(self.floor()?.recall(*name)),
            Call::Forget(name) => done(self.floor()?.forget(*name)),
            Call::Round => self.round(),
            Call::NewPlan => {
                self.plan = Plan::default();
                Ok(Answer::Done)
            }
            Call::Entry(entry) => self.enter(*entry),
            Call::Release(label) => self.release(*label),
            Call::Put { floor, give_up } => self.put(*floor, *give_up),
            Call::Take { floor, give_up } => self.take(*floor, *give_up),
            Call::Allowance(allowance) => {
                self.allowance = *allowance;
                Ok(Answer::Done)
            }
            Call::On { floor, call } => self.on(*floor, *call),
        }
    }

    fn operation(&mut self) -> Result<&mut Operation, Denial> {
        self.hand.as_deref_mut().ok_or(Denial::NoFloor)
    }

    fn floor(&mut self) -> Result<&mut Floor, Denial> {
        Ok(&mut self.operation()?.floor)
    }

    /// Puts a new floor in the place of the one at hand.
    fn begin(&mut self, floor: Floor, give_up: bool) -> Result<Answer, Denial> {
        self.may_leave(give_up)?;
        self.runs += 1;
        Ok(self.hold(floor, self.runs))
    }

    /// Whether the floor at hand may be given up.
    fn may_leave(&self, give_up: bool) -> Result<(), Denial> {
        match self.hand().map_or(0, |hand| hand.floor.aboard()) {
            0 => Ok(()),
            _ if give_up => Ok(()),
            canisters => Err(Denial::Holds(canisters)),
        }
    }

    /// The floor comes to hand; the plan of the one before it ends.
    fn hold(&mut self, floor: Floor, run: u64) -> Answer {
        let settings = *floor.settings();
        self.hand = Some(Box::new(Operation::new(floor, run)));
        Answer::Begun {
            settings,
            plan_ended: self.end_plan(),
        }
    }

    /// Whether the plan that ended had entries.
    fn end_plan(&mut self) -> bool {
        let plan = std::mem::take(&mut self.plan);
        !plan.entries().is_empty()
    }

    fn book_list(&mut self, list: &[Booking]) -> Result<Answer, Denial> {
        let mut entries = list.to_vec();
        self.floor()?.book_list(&mut entries)?;
        Ok(Answer::Listed(entries))
    }

    fn round(&mut self) -> Result<Answer, Denial> {
        let hand = self.operation()?;
        let report = hand.floor.round()?;
        let mut round = hand.count(report);
        round.labels = self.deliver(&report);
        Ok(Answer::Round(round))
    }

    /// Hands a report to the plan, and gives the labels that it marks.
    fn deliver(&mut self, report: &Report) -> Vec<u8> {
        let before = self.plan.clone();
        // a plan that was taken goes on being taken: never refused
        if self.plan.report(report).is_err() {
            return Vec::new();
        }
        let stages = before.entries().iter().zip(self.plan.entries());
        stages
            .filter(|(old, new)| old.stage != new.stage)
            .map(|(_, new)| new.label)
            .collect()
    }

    /// Adds a waiting entry. One with which the plan would be refused is left
    /// out.
    fn enter(&mut self, entry: Entry) -> Result<Answer, Denial> {
        let mut entries = self.plan.entries().to_vec();
        if entries.len() >= MAX_ENTRIES {
            return Err(Denial::PlanFull);
        }
        entries.push(entry);
        self.plan = Plan::new(&entries)?;
        Ok(Answer::Entered(entry))
    }

    fn release(&mut self, label: u8) -> Result<Answer, Denial> {
        let hand = self.hand.as_deref_mut().ok_or(Denial::NoFloor)?;
        let released = self.plan.release(&mut hand.floor, label)?;
        let entries = self.plan.entries().iter();
        let tile = entries.rev().find(|entry| entry.label == label);
        Ok(Answer::Released {
            label,
            tile: tile.map_or(0, |entry| entry.tile),
            canister: Canister::new(released.number, released.place.a, released.place.b),
        })
    }

    /// Moves the floor at hand to the barge.
    fn put(&mut self, floor: u32, give_up: bool) -> Result<Answer, Denial> {
        if self.hand.is_none() {
            return Err(Denial::NoFloor);
        }
        let place = place(floor)?;
        let canisters = self.aboard(floor).map_or(0, |there| there.floor.aboard());
        if canisters > 0 && !give_up {
            return Err(Denial::BargeHolds { floor, canisters });
        }
        self.barge[place] = self.hand.take().map(begun_anew);
        Ok(Answer::Put {
            plan_ended: self.end_plan(),
        })
    }

    /// Moves a floor of the barge to hand.
    fn take(&mut self, floor: u32, give_up: bool) -> Result<Answer, Denial> {
        let place = place(floor)?;
        let there = self.aboard(floor).ok_or(Denial::NotOnBarge(floor))?;
        let (moved, run) = (there.floor.clone(), there.run);
        self.may_leave(give_up)?;
        self.barge[place] = None;
        Ok(self.hold(moved, run))
    }

    /// A call on one floor of the barge.
    fn on(&mut self, floor: u32, call: OnFloor) -> Result<Answer, Denial> {
        let mut barge = self.assemble()?;
        let answer = match call {
            OnFloor::Book { tile, canister } => {
                barge.book(floor, tile, canister)?;
                Answer::Booked { tile, canister }
            }
            OnFloor::BookAnywhere { tile, number } => {
                let place = barge.book_anywhere(floor, tile, number)?;
                let canister = Canister::new(number, place.a, place.b);
                Answer::Booked { tile, canister }
            }
            OnFloor::Stop(tile) => done(barge.stop(floor, tile))?,
            OnFloor::Repair(tile) => done(barge.repair(floor, tile))?,
            OnFloor::Round => {
                let report = barge.round(floor)?;
                let there = self.barge[place(floor)?].as_deref_mut();
                Answer::Round(there.ok_or(Denial::NotOnBarge(floor))?.count(report))
            }
        };
        // the other three are as they were
        let after = barge.floor(floor)?.clone();
        if let Some(there) = &mut self.barge[place(floor)?] {
            there.floor = after;
        }
        Ok(answer)
    }

    /// The barge as the library takes it; refused where it isn't sound, so also
    /// where a floor isn't there.
    fn assemble(&self) -> Result<Barge, Refusal> {
        let mut floors = Vec::with_capacity(FLOORS);
        for there in &self.barge {
            let there = there.as_deref().ok_or(Refusal::Malformed)?;
            floors.push(there.floor.clone());
        }
        let floors = <[Floor; FLOORS]>::try_from(floors).map_err(|_| Refusal::Malformed)?;
        Barge::new(floors, self.allowance)
    }
}

/// An answer without more to tell.
fn done(result: Result<(), Refusal>) -> Result<Answer, Denial> {
    result?;
    Ok(Answer::Done)
}

/// A floor's place on the barge.
fn place(floor: u32) -> Result<usize, Refusal> {
    let place = usize::try_from(floor).ok().filter(|place| *place < FLOORS);
    place.ok_or(Refusal::NoFloor)
}

/// A floor that comes to another place.
fn begun_anew(from: Box<Operation>) -> Box<Operation> {
    Box::new(Operation::new(from.floor, from.run))
}
