//! What is to be fed in which order.

use core::fmt;

use crate::floor::Floor;
use crate::raw::{self, Entry};
use crate::refusal::{accepted, Refusal};
use crate::report::Report;
use crate::tile::Place;

/// What is to be fed in which order: up to 64 entries, each with a label and up
/// to two labels that must be delivered earlier.
///
/// ```
/// use ceromby::{Entry, Floor, Plan, Refusal};
///
/// # fn main() -> Result<(), Refusal> {
/// let mut floor = Floor::load(&[])?; // the standard floor: fill tile 4
/// // Medicated feed, label 2, follows plain.
/// let mut plan = Plan::new(&[Entry::new(1, 4), Entry::new(2, 4).after(1)])?;
/// while !plan.is_done() {
///     if let Some(label) = plan.offer()? {
///         let released = plan.release(&mut floor, label)?;
///         println!("label {label} is canister {} at {}", released.number, released.place);
///     }
///     let report = floor.round()?;
///     plan.report(&report)?;
/// }
/// assert_eq!(floor.counters().delivered[0], 2);
/// # Ok(())
/// # }
/// ```
#[derive(Clone, PartialEq, Eq)]
pub struct Plan {
    memory: raw::Plan,
}

/// What a release booked.
#[derive(Clone, Copy, PartialEq, Eq, Hash, Debug)]
pub struct Released {
    /// The canister's number.
    pub number: u32,
    /// Where it is to be set.
    pub place: Place,
}

impl Plan {
    /// A plan of these entries, in any order. Refused by
    /// [`Refusal::Malformed`] (over 64 of them, or one past waiting has a
    /// predecessor that isn't delivered, or two are booked under one number) and
    /// [`Refusal::BadLabel`].
    pub fn new(entries: &[Entry]) -> Result<Plan, Refusal> {
        Plan::try_from(raw::Plan::of(entries))
    }

    /// The lowest label that waits and whose predecessors are all delivered, if
    /// there is one.
    pub fn offer(&self) -> Result<Option<u8>, Refusal> {
        let offered = raw::as_in_c::offer(&self.memory);
        accepted(offered.refusal)?;
        Ok((offered.label != 0).then_some(offered.label))
    }

    /// Books a label that waits, offered or not, as [`Floor::book_anywhere`]
    /// does, on its entry's tile and under the number after the floor's last.
    /// Refused by [`Refusal::NotReleased`], by what refuses such a booking, and
    /// by [`Refusal::Malformed`] if the plan has booked numbers that this floor
    /// never had.
    pub fn release(&mut self, floor: &mut Floor, label: u8) -> Result<Released, Refusal> {
        let released = raw::plan::release(&self.memory, floor.as_raw(), label.into());
        accepted(released.refusal)?;
        self.memory = released.plan;
        floor.memory = released.floor;
        Ok(Released {
            number: released.number,
            place: Place {
                a: released.a,
                b: released.b,
            },
        })
    }

    /// Marks delivered what a round's report lists. Every report from the first
    /// release on is to be handed in.
    pub fn report(&mut self, report: &Report) -> Result<(), Refusal> {
        let planned = raw::plan::report(&self.memory, report.as_raw());
        accepted(planned.refusal)?;
        self.memory = planned.plan;
        Ok(())
    }

    /// Its entries, in the order in which they were given.
    pub fn entries(&self) -> &[Entry] {
        self.memory.used()
    }

    /// Whether every entry is delivered.
    pub fn is_done(&self) -> bool {
        let delivered = raw::plan::STAGE_DELIVERED;
        self.entries().iter().all(|entry| entry.stage == delivered)
    }

    /// As C gets it.
    pub fn as_raw(&self) -> &raw::Plan {
        &self.memory
    }
}

/// No entries.
impl Default for Plan {
    fn default() -> Plan {
        Plan {
            memory: raw::Plan::of(&[]),
        }
    }
}

/// Refused as [`Plan::new`] is.
impl TryFrom<raw::Plan> for Plan {
    type Error = Refusal;

    fn try_from(memory: raw::Plan) -> Result<Plan, Refusal> {
        let plan = Plan { memory };
        plan.offer()?;
        Ok(plan)
    }
}

impl fmt::Debug for Plan {
    fn fmt(&self, f: &mut fmt::Formatter) -> fmt::Result {
        f.debug_list().entries(self.entries()).finish()
    }
}
