//! A plan of feeds that follow others (request [12]).

use crate::anywhere::book_anywhere;
use crate::check::well_formed;
use crate::faults::{self, Fault};
use crate::refusal;
use crate::types::{Floor, Report};

/// "A plan has up to 64 entries".
pub const MAX_ENTRIES: usize = 64;
/// "each a label 1 to 64".
pub const MAX_LABEL: u8 = 64;
/// In place of a predecessor, or of a label offered: none.
pub const NO_LABEL: u8 = 0;
/// Most that a report lists for a hopper.
const MOST: u8 = 4;

/// The stage bytes that are written. Every other byte is read as `BOOKED`.
pub const WAITING: u8 = 0;
pub const BOOKED: u8 = 1;
pub const DELIVERED: u8 = 2;

#[repr(C)]
#[derive(Clone, Copy, PartialEq, Eq, Debug)]
pub struct Entry {
    /// "a fill tile".
    pub tile: u32,
    /// The number that it is booked under.
    pub number: u32,
    pub label: u8,
    /// "up to two lower labels that must be delivered earlier".
    pub first: u8,
    pub second: u8,
    /// 0 waits, 2 delivered, any other byte booked.
    pub stage: u8,
}

/// Entries past the count are ignored.
#[repr(C)]
#[derive(Clone, Copy, PartialEq, Eq, Debug)]
pub struct Plan {
    pub entries: [Entry; MAX_ENTRIES],
    pub count: u32,
}

/// "An entry waits, is booked under a number, or is delivered."
#[derive(Clone, Copy, PartialEq, Eq, Debug)]
pub enum Stage {
    Waiting,
    Booked(u32),
    Delivered,
}

#[derive(Clone, Copy, PartialEq, Eq, Debug)]
pub struct OfferAnswer {
    pub refusal: u8,
    /// 0 where none is offered.
    pub label: u8,
}

#[derive(Clone, Copy, PartialEq, Eq, Debug)]
pub struct PlanAnswer {
    pub refusal: u8,
    pub plan: Plan,
}

#[derive(Clone, Copy, PartialEq, Eq, Debug)]
pub struct ReleaseAnswer {
    pub refusal: u8,
    pub floor: Floor,
    pub plan: Plan,
    /// What was booked, and where.
    pub number: u32,
    pub a: u16,
    pub b: u16,
}

impl Entry {
    pub const ZERO: Entry = Entry {
        tile: 0,
        number: 0,
        label: 0,
        first: 0,
        second: 0,
        stage: 0,
    };

    pub fn stage(&self) -> Stage {
        match self.stage {
            WAITING => Stage::Waiting,
            DELIVERED => Stage::Delivered,
            3.. if faults::on(Fault::StageWaits) => Stage::Waiting,
            _ => Stage::Booked(self.number),
        }
    }

    fn booked(&self) -> Option<u32> {
        match self.stage() {
            Stage::Booked(number) => Some(number),
            _ => None,
        }
    }

    /// None, one or two labels.
    pub fn predecessors(&self) -> impl Iterator<Item = u8> {
        let both = [self.first, self.second];
        both.into_iter().filter(|label| *label != NO_LABEL)
    }
}

impl Plan {
    pub const EMPTY: Plan = Plan {
        entries: [Entry::ZERO; MAX_ENTRIES],
        count: 0,
    };

    /// The entries that count; all 64 for a plan that claims more.
    pub fn used(&self) -> &[Entry] {
        let claimed = match faults::on(Fault::PastCount) {
            true => MAX_ENTRIES,
            false => self.count as usize,
        };
        &self.entries[..claimed.min(MAX_ENTRIES)]
    }

    /// The entries with a label: one at most, but in a plan that is 47.
    fn labelled(&self, label: u8) -> impl Iterator<Item = &Entry> {
        self.used().iter().filter(move |entry| entry.label == label)
    }

    /// Whether every entry with a label is delivered.
    fn delivered(&self, label: u8) -> bool {
        self.labelled(label)
            .all(|entry| entry.stage() == Stage::Delivered)
    }

    /// "whose predecessors are all delivered".
    fn ready(&self, entry: &Entry) -> bool {
        let gone = |label| match faults::on(Fault::BookedSuffices) {
            true => self
                .labelled(label)
                .all(|entry| entry.stage() != Stage::Waiting),
            false => self.delivered(label),
        };
        entry.predecessors().all(gone)
    }
}

/// "A plan that claims more than 64 entries".
fn claims_too_many(plan: &Plan) -> bool {
    plan.count > MAX_ENTRIES as u32
}

/// "an entry past waiting has a predecessor's label on an undelivered entry".
fn went_ahead(plan: &Plan) -> bool {
    plan.used().iter().any(|entry| {
        entry.stage() != Stage::Waiting && entry.predecessors().any(|label| !plan.delivered(label))
    })
}

/// "two booked entries hold one number".
fn share_a_number(plan: &Plan) -> bool {
    let holds = |entry: &Entry| match entry.stage() {
        Stage::Delivered if faults::on(Fault::DeliveredHolds) => Some(entry.number),
        _ => entry.booked(),
    };
    let entries = plan.used();
    entries.iter().enumerate().any(|(at, entry)| {
        holds(entry).is_some()
            && entries[..at]
                .iter()
                .any(|other| holds(other) == holds(entry))
    })
}

/// What makes a plan 30 in every call.
fn malformed(plan: &Plan) -> bool {
    claims_too_many(plan) || went_ahead(plan) || share_a_number(plan)
}

/// "at release a booked number is 0 or above the last booked".
fn numbers_fit(plan: &Plan, floor: &Floor) -> bool {
    let least = u32::from(!faults::on(Fault::ZeroReleased));
    let last = match faults::on(Fault::NumbersUnchecked) {
        true => u32::MAX,
        false => floor.counters.last,
    };
    let mut booked = plan.used().iter().filter_map(Entry::booked);
    booked.all(|number| (least..=last).contains(&number))
}

/// "a report to it with over four deliveries for a hopper".
fn lists_too_many(report: &Report) -> bool {
    let lists = match faults::on(Fault::FirstCountAlone) {
        true => &report.deliveries[..1],
        false => &report.deliveries[..],
    };
    lists.iter().any(|delivery| delivery.count > MOST)
}

/// "47, an entry's label repeated or outside 1 to 64, or a predecessor absent
/// or not lower".
fn labels_fit(plan: &Plan) -> bool {
    plan.used().iter().all(|entry| {
        let lower = |label: u8| match faults::on(Fault::NamesItself) {
            true => label <= entry.label,
            false => label < entry.label,
        };
        let twice = entry.first == entry.second && entry.first != NO_LABEL;
        (1..=MAX_LABEL).contains(&entry.label)
            && plan.labelled(entry.label).count() == 1
            && entry
                .predecessors()
                .all(|label| plan.labelled(label).count() > 0 && lower(label))
            && !(twice && faults::on(Fault::EqualRefused))
    })
}

/// 0, 30 or 47: "47 ... after 30".
fn refusal_of(plan: &Plan, malformed: bool) -> u8 {
    if faults::on(Fault::LabelsFirst) && !labels_fit(plan) {
        refusal::BAD_LABEL
    } else if malformed {
        refusal::MALFORMED
    } else if !labels_fit(plan) {
        refusal::BAD_LABEL
    } else {
        refusal::ACCEPTED
    }
}

/// "The plan offers the lowest waiting label whose predecessors are all
/// delivered, and none exactly when there is no such label."
pub fn offer(plan: &Plan) -> OfferAnswer {
    let refusal = refusal_of(plan, malformed(plan));
    let waiting = |entry: &&Entry| entry.stage() == Stage::Waiting && plan.ready(entry);
    let mut labels = plan.used().iter().filter(waiting).map(|entry| entry.label);
    let label = match refusal {
        refusal::ACCEPTED if faults::on(Fault::OfferHighest) => labels.max(),
        refusal::ACCEPTED if faults::on(Fault::OfferFirst) => labels.next(),
        refusal::ACCEPTED => labels.min(),
        _ => None,
    };
    OfferAnswer {
        refusal,
        label: label.unwrap_or(NO_LABEL),
    }
}

/// "A release books a waiting label as in [1], under the number after the last
/// booked; with no such number left it is 33."
pub fn release(plan: &Plan, floor: &Floor, label: u32) -> ReleaseAnswer {
    let unchanged = |refusal| ReleaseAnswer {
        refusal,
        floor: *floor,
        plan: *plan,
        number: 0,
        a: 0,
        b: 0,
    };
    let at = match checked_label(plan, floor, label) {
        Ok(at) => at,
        Err(refusal) => return unchanged(refusal),
    };
    let last = floor.counters.last;
    if last == u32::MAX && faults::on(Fault::NoNumberFirst) {
        return unchanged(refusal::NUMBER_USED);
    }
    // With no number left this is the last one, which is 33 in its place.
    let number = last.saturating_add(1);
    let booked = book_anywhere(floor, plan.entries[at].tile, number);
    if booked.refusal != refusal::ACCEPTED {
        return unchanged(booked.refusal);
    }
    let mut after = *plan;
    after.entries[at].number = number;
    after.entries[at].stage = BOOKED;
    let mut floor = booked.floor;
    if faults::on(Fault::NumberReused) {
        floor.counters.last = last;
    }
    ReleaseAnswer {
        refusal: refusal::ACCEPTED,
        floor,
        plan: after,
        number,
        a: booked.a,
        b: booked.b,
    }
}

/// The place of the entry to release, or the first refusal before those of the
/// booking. "48, the label asked for not waiting or a predecessor undelivered,
/// at release, after 47 and before the booking's other checks."
fn checked_label(plan: &Plan, floor: &Floor, label: u32) -> Result<usize, u8> {
    let malformed = malformed(plan) || !well_formed(floor) || !numbers_fit(plan, floor);
    match refusal_of(plan, malformed) {
        refusal::ACCEPTED => {}
        refusal => return Err(refusal),
    }
    let label = match faults::on(Fault::LabelCut) {
        true => label & 255,
        false => label,
    };
    let mut entries = plan.used().iter();
    let found = entries.position(|entry| u32::from(entry.label) == label);
    let Some(at) = found else {
        return match plan.used().is_empty() || !faults::on(Fault::AbsentReleased) {
            true => Err(refusal::NOT_RELEASED),
            false => Ok(0),
        };
    };
    let entry = &plan.used()[at];
    let ready = plan.ready(entry) || faults::on(Fault::ReleaseUnready);
    match entry.stage() == Stage::Waiting && ready {
        true => Ok(at),
        false => Err(refusal::NOT_RELEASED),
    }
}

/// "A round's report marks delivered exactly the booked labels whose numbers it
/// lists."
pub fn report(plan: &Plan, report: &Report) -> PlanAnswer {
    let refusal = refusal_of(plan, malformed(plan) || lists_too_many(report));
    let mut after = *plan;
    if refusal == refusal::ACCEPTED {
        mark(&mut after, report);
    }
    PlanAnswer {
        refusal,
        plan: after,
    }
}

fn mark(plan: &mut Plan, report: &Report) {
    let listed = |entry: &Entry| entry.booked().is_some_and(|number| lists(report, number));
    if faults::on(Fault::MarkedInOrder) {
        let count = plan.used().iter().filter(|entry| listed(entry)).count();
        let used = plan.used().len();
        let booked = |entry: &&mut Entry| entry.booked().is_some();
        for entry in plan.entries[..used].iter_mut().filter(booked).take(count) {
            entry.stage = DELIVERED;
        }
        return;
    }
    let used = plan.used().len();
    for entry in &mut plan.entries[..used] {
        if listed(entry) {
            entry.stage = DELIVERED;
            if faults::on(Fault::NumberCleared) {
                entry.number = 0;
            }
        }
    }
}

/// Whether a report lists a number for any hopper. What follows the first
/// `count` numbers is filling.
fn lists(report: &Report, number: u32) -> bool {
    let lists = match faults::on(Fault::FirstHopperAlone) {
        true => &report.deliveries[..1],
        false => &report.deliveries[..],
    };
    lists.iter().any(|delivery| {
        let count = match faults::on(Fault::FillingListed) {
            true => delivery.numbers.len(),
            false => usize::from(delivery.count),
        };
        delivery
            .numbers
            .iter()
            .take(count)
            .any(|other| *other == number)
    })
}
