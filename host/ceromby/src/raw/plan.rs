//! Plans: what is to be fed in which order.

use super::c;
use super::types::{Floor, Report};

/// Most entries of a plan.
pub const MAX_ENTRIES: usize = 64;
/// The highest label; the lowest is 1.
pub const MAX_LABEL: u8 = 64;

/// The byte `stage` of an entry that waits.
pub const STAGE_WAITING: u8 = 0;
/// Of one that is booked. Any byte above 2 is read as this one.
pub const STAGE_BOOKED: u8 = 1;
/// Of one that was delivered.
pub const STAGE_DELIVERED: u8 = 2;

/// An entry of a plan. Any bytes may stand here.
#[repr(C)]
#[derive(Clone, Copy, PartialEq, Eq, Debug, Default)]
pub struct Entry {
    /// A fill tile; looked at in a release alone.
    pub tile: u32,
    /// What it is booked under; a delivered entry keeps it.
    pub number: u32,
    /// 1 to 64, each once in a plan.
    pub label: u8,
    /// Lower labels of the plan that must be delivered earlier, 0 for none.
    pub first: u8,
    /// The same.
    pub second: u8,
    /// 0 waits, 2 delivered, any other byte booked; [`Entry::stage()`] tells.
    pub stage: u8,
}

/// Where an entry stands.
#[derive(Clone, Copy, PartialEq, Eq, Debug)]
pub enum Stage {
    /// Not yet released.
    Waiting,
    /// Under this number.
    Booked(u32),
    /// A report that lists its number was handed in.
    Delivered,
}

impl Entry {
    /// An entry that waits, after no other.
    pub const fn new(label: u8, tile: u32) -> Entry {
        Entry::waiting(label, tile, 0, 0)
    }

    /// The same after one other label, in place of what it was after.
    pub const fn after(self, first: u8) -> Entry {
        self.after_both(first, 0)
    }

    /// The same after two other labels.
    pub const fn after_both(self, first: u8, second: u8) -> Entry {
        Entry {
            first,
            second,
            ..self
        }
    }

    /// An entry that waits. A predecessor 0 is none.
    pub const fn waiting(label: u8, tile: u32, first: u8, second: u8) -> Entry {
        Entry {
            tile,
            number: 0,
            label,
            first,
            second,
            stage: STAGE_WAITING,
        }
    }

    /// Where the entry stands, by its byte.
    pub const fn stage(&self) -> Stage {
        match self.stage {
            STAGE_WAITING => Stage::Waiting,
            STAGE_DELIVERED => Stage::Delivered,
            _ => Stage::Booked(self.number),
        }
    }
}

/// What is to be fed in which order. Entries from the count on are ignored and
/// handed back. A plan that isn't sound is refused by 30.
#[repr(C)]
#[derive(Clone, Copy, PartialEq, Eq, Debug)]
pub struct Plan {
    /// In any order; [`Plan::used`] gives those that count.
    pub entries: [Entry; MAX_ENTRIES],
    /// How many count.
    pub count: u32,
}

impl Plan {
    /// A plan of these entries. With more than 64 it claims so many, and is
    /// refused by 30.
    pub fn of(entries: &[Entry]) -> Plan {
        let mut plan = Plan {
            entries: [Entry::default(); MAX_ENTRIES],
            count: u32::try_from(entries.len()).unwrap_or(u32::MAX),
        };
        for (place, entry) in plan.entries.iter_mut().zip(entries) {
            *place = *entry;
        }
        plan
    }

    /// The entries that count.
    pub fn used(&self) -> &[Entry] {
        let count = usize::try_from(self.count).unwrap_or(MAX_ENTRIES);
        &self.entries[..count.min(MAX_ENTRIES)]
    }
}

/// The answer of an offer as C gets it.
#[repr(C)]
#[derive(Clone, Copy, PartialEq, Eq, Debug)]
pub struct Offered {
    /// 0 where none is offered, and beside a refusal.
    pub label: u8,
    /// 0 for accepted.
    pub refusal: u8,
}

/// The answer of a report.
#[must_use = "a call leaves the plan that it was handed"]
#[repr(C)]
#[derive(Clone, Copy, PartialEq, Eq, Debug)]
pub struct Planned {
    /// The plan after it. Beside a refusal, the one that was handed in.
    pub plan: Plan,
    /// 0 for accepted.
    pub refusal: u8,
}

/// The answer of a release.
#[must_use = "a call leaves the plan and the floor that it was handed"]
#[repr(C)]
#[derive(Clone, Copy, PartialEq, Eq, Debug)]
pub struct Released {
    /// The floor after it. Beside a refusal, the one that was handed in.
    pub floor: Floor,
    /// The plan, in the same way.
    pub plan: Plan,
    /// What was booked. Beside a refusal 0, at the place (0, 0).
    pub number: u32,
    /// Its place; [`Released::place`] gives none beside a refusal.
    pub a: u16,
    /// The same, northward.
    pub b: u16,
    /// 0 for accepted.
    pub refusal: u8,
}

impl Released {
    /// The place (a, b) that the canister took, if it was accepted.
    pub fn place(&self) -> Option<(u16, u16)> {
        (self.refusal == 0).then_some((self.a, self.b))
    }
}

/// The lowest label that waits and whose predecessors are all delivered, if
/// there is one, or the number of the refusal.
pub fn offer(plan: &Plan) -> Result<Option<u8>, u8> {
    match offered(plan) {
        Offered { refusal: 0, label } => Ok((label != 0).then_some(label)),
        Offered { refusal, .. } => Err(refusal),
    }
}

/// The answer of an offer as C gets it.
pub(crate) fn offered(plan: &Plan) -> Offered {
    // SAFETY: plain values in and out.
    unsafe { c::ceromby_plan_offer(*plan) }
}

/// Books a label that waits, as [`super::book_anywhere`] does, under the number
/// after the floor's last.
pub fn release(plan: &Plan, floor: &Floor, label: u32) -> Released {
    // SAFETY: plain values in and out.
    unsafe { c::ceromby_plan_release(*plan, *floor, label) }
}

/// Marks delivered what a round's report lists, for any hopper. Every report
/// from the first release on is to be handed in.
pub fn report(plan: &Plan, report: &Report) -> Planned {
    // SAFETY: plain values in and out.
    unsafe { c::ceromby_plan_report(*plan, *report) }
}
