//! Plans (request [12]): calls made by both and held to the paper, whole plans
//! followed to their end, and what the runs met of them.

mod counts;
mod makers;

use std::collections::BTreeSet;
use std::fmt::Debug;

use ::ceromby::raw as ceromby;
use oracle::{
    Delivery, Entry, Floor, OfferAnswer, Plan, PlanAnswer, ReleaseAnswer, Report, BOOKED,
    DELIVERED, WAITING,
};

use crate::call::{Call, Outcome, Trouble};

pub use counts::Counts;
pub use makers::{any_label, any_plan, any_report, last_number_used, new_plan};

/// An offer as C gets it, so that the label beside a refusal is compared too.
/// The binding's own answer must be the same, without that label.
pub fn offer(plan: &Plan) -> OfferAnswer {
    let plan = convert::to_plan(plan);
    let told = ceromby::as_in_c::offer(&plan);
    let due = match told.refusal {
        0 => Ok((told.label != 0).then_some(told.label)),
        refusal => Err(refusal),
    };
    let same = ceromby::plan::offer(&plan) == due;
    assert!(same, "the binding gives another answer to an offer");
    OfferAnswer {
        refusal: told.refusal,
        label: told.label,
    }
}

pub fn release(plan: &Plan, floor: &Floor, label: u32) -> ReleaseAnswer {
    let (plan, floor) = (convert::to_plan(plan), convert::to_floor(floor));
    convert::from_released(&ceromby::plan::release(&plan, &floor, label))
}

pub fn report(plan: &Plan, report: &Report) -> PlanAnswer {
    let (plan, report) = (convert::to_plan(plan), convert::to_report(report));
    convert::from_planned(&ceromby::plan::report(&plan, &report))
}

/// The entries that count, if the plan doesn't claim more than 64.
fn used(plan: &Plan) -> Option<&[Entry]> {
    plan.entries.get(..plan.count as usize)
}

/// The entries that count, all of them in a plan that claims more.
fn shown(plan: &Plan) -> &[Entry] {
    used(plan).unwrap_or(&plan.entries)
}

/// Neither waiting nor delivered.
fn is_booked(entry: &Entry) -> bool {
    entry.stage != WAITING && entry.stage != DELIVERED
}

fn predecessors(entry: &Entry) -> impl Iterator<Item = u8> {
    let both = [entry.first, entry.second];
    both.into_iter().filter(|label| *label != 0)
}

/// The labels of the entries that pass a test.
fn labels(entries: &[Entry], which: impl Fn(&Entry) -> bool) -> BTreeSet<u8> {
    let chosen = entries.iter().filter(|entry| which(entry));
    chosen.map(|entry| entry.label).collect()
}

/// Whether an entry past waiting has a predecessor's label on an undelivered
/// entry.
fn went_ahead(entries: &[Entry]) -> bool {
    let undelivered = labels(entries, |entry| entry.stage != DELIVERED);
    let early = |entry: &Entry| predecessors(entry).any(|at| undelivered.contains(&at));
    let mut past = entries.iter().filter(|entry| entry.stage != WAITING);
    past.any(early)
}

/// Whether two booked entries hold one number.
fn share_a_number(entries: &[Entry]) -> bool {
    let booked = entries.iter().filter(|entry| is_booked(entry));
    let mut numbers = BTreeSet::new();
    let mut new = booked.map(|entry| numbers.insert(entry.number));
    new.any(|new| !new)
}

/// Whether labels are 1 to 64, each once, with lower labels of the plan before
/// them.
fn labels_fit(entries: &[Entry]) -> bool {
    let all = labels(entries, |_| true);
    let lower = |entry: &Entry| predecessors(entry).all(|at| at < entry.label && all.contains(&at));
    all.len() == entries.len()
        && all.iter().all(|label| (1..=64).contains(label))
        && entries.iter().all(lower)
}

/// Whether a booked number is 0 or above the last.
fn number_out_of_range(entries: &[Entry], last: u32) -> bool {
    let mut booked = entries.iter().filter(|entry| is_booked(entry));
    booked.any(|entry| entry.number == 0 || entry.number > last)
}

/// Whether a report has a count above 4.
fn lists_too_many(report: &Report) -> bool {
    report.deliveries.iter().any(|delivery| delivery.count > 4)
}

/// The numbers that a report lists.
fn listed(report: &Report) -> BTreeSet<u32> {
    let numbers = |delivery: &Delivery| delivery.numbers.into_iter().take(delivery.count.into());
    report.deliveries.iter().flat_map(numbers).collect()
}

/// 0, 30 or 47 for a plan; 30 also for what else makes it that in a call.
fn due(plan: &Plan, also: impl FnOnce(&[Entry]) -> bool) -> u8 {
    match used(plan) {
        None => 30,
        Some(entries) if went_ahead(entries) || share_a_number(entries) => 30,
        Some(entries) if also(entries) => 30,
        Some(entries) if !labels_fit(entries) => 47,
        _ => 0,
    }
}

/// Whether a label waits with all its predecessors delivered.
fn can_go(entries: &[Entry], label: u32) -> bool {
    let delivered = labels(entries, |entry| entry.stage == DELIVERED);
    let ready = |entry: &Entry| predecessors(entry).all(|at| delivered.contains(&at));
    let mut named = entries.iter().filter(|at| u32::from(at.label) == label);
    named.any(|entry| entry.stage == WAITING && ready(entry))
}

/// Whether the library finds the floor malformed.
fn is_malformed(floor: &ceromby::Floor) -> bool {
    ceromby::read(floor, 0).refusal == 30
}

fn broken<T>(text: String) -> Result<T, Trouble> {
    Err(Trouble::promise("plans", text))
}

/// Trouble unless the answer is the one that is due.
fn hold(told: impl Debug, due: impl Debug, same: bool) -> Result<(), Trouble> {
    match same {
        true => Ok(()),
        false => broken(format!("{told:?}, but {due:?} is due")),
    }
}

/// Holds a call about a plan to what the plan, and the floor before, ask for.
pub fn check(before: &Floor, call: &Call, outcome: &Outcome) -> Result<(), Trouble> {
    match (call, outcome) {
        (Call::Offer { plan }, Outcome::Offered(answer)) => check_offer(plan, answer),
        (Call::Release { plan, label }, Outcome::Released(answer)) => {
            check_release(plan, before, *label, answer)
        }
        (Call::Report { plan, report }, Outcome::Planned(answer)) => {
            check_report(plan, report, answer)
        }
        _ => Ok(()),
    }
}

fn check_offer(plan: &Plan, answer: &OfferAnswer) -> Result<(), Trouble> {
    let refusal = due(plan, |_| false);
    let entries = used(plan).unwrap_or(&[]);
    let label = match refusal {
        0 => (1..=64).find(|label| can_go(entries, (*label).into())),
        _ => None,
    };
    let due = OfferAnswer {
        refusal,
        label: label.unwrap_or(0),
    };
    hold(answer, due, *answer == due)
}

/// A release is the library's booking without a place of the next number.
fn check_release(
    plan: &Plan,
    before: &Floor,
    label: u32,
    answer: &ReleaseAnswer,
) -> Result<(), Trouble> {
    let floor = convert::to_floor(before);
    let last = before.counters.last;
    let refused = |refusal| ReleaseAnswer {
        refusal,
        floor: *before,
        plan: *plan,
        number: 0,
        a: 0,
        b: 0,
    };
    let also = |entries: &[Entry]| is_malformed(&floor) || number_out_of_range(entries, last);
    let refusal = match due(plan, also) {
        0 if !can_go(used(plan).unwrap_or(&[]), label) => 48,
        refusal => refusal,
    };
    if refusal != 0 {
        let due = refused(refusal);
        return hold(answer.refusal, refusal, *answer == due);
    }
    let entries = &plan.entries;
    let Some(at) = entries.iter().position(|at| u32::from(at.label) == label) else {
        return broken(format!("label {label} can go and isn't in the plan"));
    };
    // With no number left a booking of any other is 33.
    let number = last.checked_add(1).unwrap_or(last);
    let there = ceromby::book_anywhere(&floor, plan.entries[at].tile, number);
    if there.refusal != 0 {
        let due = refused(there.refusal);
        return hold(answer.refusal, there.refusal, *answer == due);
    }
    let mut after = *plan;
    (after.entries[at].number, after.entries[at].stage) = (number, BOOKED);
    let due = ReleaseAnswer {
        refusal: 0,
        floor: convert::from_placed(&there).floor,
        plan: after,
        number,
        a: there.a,
        b: there.b,
    };
    let told = (answer.refusal, answer.number, answer.a, answer.b);
    hold(told, (0, number, there.a, there.b), *answer == due)
}

fn check_report(plan: &Plan, report: &Report, answer: &PlanAnswer) -> Result<(), Trouble> {
    let refusal = due(plan, |_| lists_too_many(report));
    let mut after = *plan;
    if refusal == 0 {
        let listed = listed(report);
        for entry in &mut after.entries[..plan.count as usize] {
            if is_booked(entry) && listed.contains(&entry.number) {
                entry.stage = DELIVERED;
            }
        }
    }
    let due = PlanAnswer {
        refusal,
        plan: after,
    };
    hold(answer.refusal, refusal, *answer == due)
}

/// A plan from its first call on, all entries waiting.
pub struct Follow {
    pub plan: Plan,
    /// The labels whose deliveries were reported.
    reported: BTreeSet<u8>,
    released: u64,
}

impl Follow {
    pub fn of(plan: Plan) -> Follow {
        Follow {
            plan,
            reported: BTreeSet::new(),
            released: 0,
        }
    }

    fn all(&self, stages: &[u8]) -> bool {
        let mut stage = shown(&self.plan).iter().map(|entry| entry.stage);
        stage.all(|stage| stages.contains(&stage))
    }

    pub fn ended(&self) -> bool {
        self.all(&[DELIVERED])
    }

    /// Takes over what a call gave. "no planned canister is booked before its
    /// predecessors were reported. While a label waits and no booked one is
    /// undelivered, one is offered."
    pub fn note(&mut self, call: &Call, outcome: &Outcome) -> Result<(), Trouble> {
        match (call, outcome) {
            (Call::Offer { .. }, Outcome::Offered(answer)) => {
                let idle = self.all(&[WAITING, DELIVERED]) && !self.ended();
                if answer.refusal != 0 || idle && answer.label == 0 {
                    return broken(format!("{answer:?} while a label waits"));
                }
            }
            (Call::Release { label, .. }, Outcome::Released(answer)) => {
                if answer.refusal == 0 {
                    self.note_release(*label)?;
                }
                self.plan = answer.plan;
            }
            (Call::Report { report, .. }, Outcome::Planned(answer)) => {
                if answer.refusal != 0 {
                    return broken(format!("a round's report answers {}", answer.refusal));
                }
                for entry in shown(&self.plan) {
                    if is_booked(entry) && listed(report).contains(&entry.number) {
                        self.reported.insert(entry.label);
                    }
                }
                self.plan = answer.plan;
                let marked = labels(shown(&self.plan), |entry| entry.stage == DELIVERED);
                if marked != self.reported {
                    return broken(format!(
                        "{marked:?} delivered, {:?} reported",
                        self.reported
                    ));
                }
            }
            _ => {}
        }
        Ok(())
    }

    fn note_release(&mut self, label: u32) -> Result<(), Trouble> {
        let mut entries = shown(&self.plan).iter();
        let entry = entries.find(|entry| u32::from(entry.label) == label);
        let early = |entry: &&Entry| !predecessors(entry).all(|at| self.reported.contains(&at));
        self.released += 1;
        match entry {
            None => broken(format!("label {label} released and not in the plan")),
            Some(entry) if entry.stage != WAITING => broken(format!("{label} released again")),
            Some(entry) if early(&entry) => broken(format!("{label} released too early")),
            _ => Ok(()),
        }
    }

    /// Counts a plan that was followed.
    pub fn tell(&self, counts: &mut Counts) {
        let waits = shown(&self.plan).iter().any(|entry| entry.stage == WAITING);
        counts.note_followed(
            self.ended(),
            waits,
            self.released,
            self.reported.len() as u64,
        );
    }
}

/// Plainer calls to try in place of one; none of them leads back.
pub fn smaller(call: &Call) -> Vec<Call> {
    match call {
        Call::Offer { plan } => {
            let offer = |plan: Plan| Call::Offer { plan: plan.into() };
            smaller_plans(plan).into_iter().map(offer).collect()
        }
        Call::Release { plan, label } => {
            let release = |plan: Plan, label| Call::Release {
                plan: plan.into(),
                label,
            };
            let plans = smaller_plans(plan).into_iter();
            let lower = [1, 65, 256].map(|most| release(**plan, *label.min(&most)));
            plans
                .map(|plan| release(plan, *label))
                .chain(lower)
                .collect()
        }
        Call::Report { plan, report } => {
            let told = |plan: Plan, report: Report| Call::Report {
                plan: plan.into(),
                report: report.into(),
            };
            let plans = smaller_plans(plan).into_iter();
            let fewer = smaller_reports(report).into_iter();
            let fewer = fewer.map(|report| told(**plan, report));
            plans
                .map(|plan| told(plan, **report))
                .chain(fewer)
                .collect()
        }
        _ => Vec::new(),
    }
}

fn smaller_plans(plan: &Plan) -> Vec<Plan> {
    let mut tries = Vec::new();
    let mut with = |change: &dyn Fn(&mut Plan)| {
        let mut plan = *plan;
        change(&mut plan);
        tries.push(plan);
    };
    let count = shown(plan).len();
    with(&|plan| plan.entries[count..].fill(Entry::ZERO));
    with(&|plan| plan.count = plan.count.min(65));
    with(&|plan| plan.count = plan.count.min(count as u32 / 2));
    for at in 0..count {
        with(&|plan| {
            plan.entries[at..].rotate_left(1);
            plan.entries[63] = Entry::ZERO;
            plan.count = plan.count.min(64) - 1;
        });
        with(&|plan| plan.entries[at].tile = 0);
        with(&|plan| plan.entries[at].number = plan.entries[at].number.min(at as u32));
        with(&|plan| plan.entries[at].label = plan.entries[at].label.min(at as u8 + 1));
        with(&|plan| plan.entries[at].first = 0);
        with(&|plan| plan.entries[at].second = 0);
        for least in [0, 1, 2, 3] {
            with(&|plan| plan.entries[at].stage = plan.entries[at].stage.min(least));
        }
    }
    tries
}

fn smaller_reports(report: &Report) -> Vec<Report> {
    let mut tries = Vec::new();
    let mut with = |change: &dyn Fn(&mut Report)| {
        let mut report = *report;
        change(&mut report);
        tries.push(report);
    };
    with(&|report| {
        *report = Report {
            deliveries: report.deliveries,
            ..Report::ZERO
        }
    });
    for rank in 0..report.deliveries.len() {
        with(&|report| report.deliveries[rank] = Delivery::ZERO);
        for at in 0..4 {
            with(&|report| report.deliveries[rank].numbers[at] = 0);
        }
        for least in 0..=5 {
            with(&|report| {
                let count = &mut report.deliveries[rank].count;
                *count = (*count).min(least);
            });
        }
    }
    tries
}

/// A call about a plan in words.
pub fn show(call: &Call) -> String {
    match call {
        Call::Offer { plan } => format!("offer of {}", show_plan(plan)),
        Call::Release { plan, label } => format!("release of label {label} of {}", show_plan(plan)),
        Call::Report { plan, report } => {
            let list =
                |delivery: &Delivery| format!("{} of {:?}", delivery.count, delivery.numbers);
            let lists: Vec<String> = report.deliveries.iter().map(list).collect();
            format!("report of {} to {}", lists.join(", "), show_plan(plan))
        }
        _ => String::new(),
    }
}

fn show_plan(plan: &Plan) -> String {
    let entry = |entry: &Entry| {
        let before = match (entry.first, entry.second) {
            (0, 0) => String::new(),
            (first, second) => format!(" after {first} and {second}"),
        };
        format!(
            "\n    label {}{before} on tile {}, stage {}, number {}",
            entry.label, entry.tile, entry.stage, entry.number
        )
    };
    let entries: String = shown(plan).iter().map(entry).collect();
    let rest = plan.entries[shown(plan).len()..].iter();
    let more = match rest.filter(|entry| **entry != Entry::ZERO).count() {
        0 => String::new(),
        more => format!("\n    {more} more past the count"),
    };
    format!("a plan that claims {} entries{entries}{more}", plan.count)
}

/// A call about a plan in a few words.
#[cfg(feature = "faults")]
pub fn size(call: &Call) -> Option<String> {
    let (plan, more) = match call {
        Call::Offer { plan } => (plan, String::new()),
        Call::Release { plan, label } => (plan, format!(", label {label}")),
        Call::Report { plan, report } => (plan, format!(", {} listed", listed(report).len())),
        _ => return None,
    };
    let entries = match plan.count {
        1 => "1 entry".into(),
        count => format!("{count} entries"),
    };
    Some(format!("{entries}{more}"))
}
