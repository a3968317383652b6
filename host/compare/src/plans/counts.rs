//! What the runs met of plans.

use std::collections::BTreeSet;

use oracle::{
    Entry, Floor, OfferAnswer, Plan, PlanAnswer, ReleaseAnswer, Report, DELIVERED, WAITING,
};

use super::{
    can_go, is_booked, is_malformed, labels, labels_fit, lists_too_many, number_out_of_range,
    predecessors, share_a_number, used, went_ahead,
};
use crate::call::{Call, Outcome};
use crate::tally;

const CALLS: [&str; 3] = ["offers", "releases", "reports"];
const CLAIMS: [&str; 8] = tally::lengths(["more", "4,294,967,295"]);
/// What a plan, a floor or a report is 30 for, and for nothing else.
const MALFORMED: [&str; 13] = [
    "too many claimed",
    "ahead of one that waits",
    "ahead of a booked one",
    "ahead of one of a repeated label",
    "booked and before itself",
    "one number twice",
    "floor",
    "number 0",
    "number above the last",
    "over four at the first hopper",
    "at the second",
    "at the third",
    "at the fourth",
];
/// What a plan is 47 for, and for nothing else.
const BAD: [&str; 8] = [
    "label 0",
    "label 65",
    "higher label",
    "repeated",
    "absent predecessor",
    "before itself, waiting",
    "before itself, delivered",
    "higher predecessor",
];
const NOT_RELEASED: [&str; 11] = [
    "label 0",
    "65",
    "256 above one that can go",
    "4,294,967,295",
    "another absent",
    "of an empty plan",
    "booked",
    "delivered",
    "a predecessor waits",
    "one is booked",
    "the second alone undelivered",
];
const RELEASED: [&str; 6] = [
    "without predecessor",
    "one",
    "two",
    "two equal",
    "another than offered",
    "under 4,294,967,295",
];
/// Refused bookings where the last number is 4,294,967,295.
const NO_NUMBER: [&str; 5] = ["4", "5", "31", "33", "33, no place too"];
const OFFERS: [&str; 7] = [
    "none, empty plan",
    "none, all delivered",
    "none, booked ones",
    "a lower label waits",
    "not the first that can go",
    "not the last that can go",
    "not the highest that can go",
];
const STAGES: [&str; 6] = ["0", "1", "2", "3", "4 to 254", "255"];
const MARKED: [&str; 4] = ["0", "1", "2 to 4", "5 or more"];
const LISTED: [&str; 10] = [
    "at the first hopper",
    "second",
    "third",
    "fourth",
    "number 0",
    "number 0 in the filling alone",
    "number past the count alone",
    "a delivered one's number",
    "a waiting one's",
    "of no entry",
];
const SHAPES: [&str; 5] = [
    "no predecessors",
    "chain of four",
    "diamond",
    "two equal predecessors",
    "something past the count",
];
const FOLLOWED: [&str; 4] = ["to the end", "with labels waiting", "released", "reported"];

#[derive(Default)]
pub struct Counts {
    /// By the call, as the next.
    claims: [[u64; CLAIMS.len()]; 3],
    /// 30 where 47 would be due too.
    both: [u64; 3],
    bad: [[u64; BAD.len()]; 3],
    malformed: [u64; MALFORMED.len()],
    not_released: [u64; NOT_RELEASED.len()],
    released: [u64; RELEASED.len()],
    no_number: [u64; NO_NUMBER.len()],
    offers: [u64; OFFERS.len()],
    /// Accepted plans that have such a byte.
    stages: [u64; STAGES.len()],
    marked: [u64; MARKED.len()],
    listed: [u64; LISTED.len()],
    shapes: [u64; SHAPES.len()],
    followed: [u64; FOLLOWED.len()],
}

impl Counts {
    pub fn note(&mut self, before: &Floor, call: &Call, outcome: &Outcome) {
        match (call, outcome) {
            (Call::Offer { plan }, Outcome::Offered(answer)) => {
                self.note_plan(0, plan, answer.refusal, &[]);
                self.note_offer(plan, answer);
            }
            (Call::Release { plan, label }, Outcome::Released(answer)) => {
                let causes = release_causes(plan, before);
                self.note_plan(1, plan, answer.refusal, &causes);
                self.note_release(plan, before, *label, answer);
            }
            (Call::Report { plan, report }, Outcome::Planned(answer)) => {
                let causes = report_causes(report);
                self.note_plan(2, plan, answer.refusal, &causes);
                self.note_report(plan, report, answer);
            }
            _ => {}
        }
    }

    fn note_plan(&mut self, call: usize, plan: &Plan, refusal: u8, more: &[usize]) {
        let over = 6 + usize::from(plan.count == u32::MAX);
        self.claims[call][tally::length_group(plan.count as usize, over)] += 1;
        let Some(entries) = used(plan) else {
            self.malformed[0] += 1;
            return;
        };
        match refusal {
            30 => {
                self.both[call] += u64::from(!labels_fit(entries));
                let mut causes = malformed_causes(entries);
                causes.extend(more);
                if let [cause] = causes[..] {
                    self.malformed[cause] += 1;
                }
            }
            47 => {
                if let [cause] = bad_causes(entries)[..] {
                    self.bad[call][cause] += 1;
                }
            }
            _ => {
                self.note_stages(entries);
                self.note_shape(plan, entries);
            }
        }
    }

    fn note_stages(&mut self, entries: &[Entry]) {
        let mut met = [false; STAGES.len()];
        for entry in entries {
            met[match entry.stage {
                stage @ 0..=3 => stage.into(),
                255 => 5,
                _ => 4,
            }] = true;
        }
        for (count, met) in self.stages.iter_mut().zip(met) {
            *count += u64::from(met);
        }
    }

    fn note_shape(&mut self, plan: &Plan, entries: &[Entry]) {
        let before = |label: u8| entries.iter().find(|entry| entry.label == label);
        let linked = |entry: &Entry| predecessors(entry).next().is_some();
        let mut chain = labels(entries, |_| true);
        for _ in 1..4 {
            let last = chain.clone();
            let next = |entry: &Entry| predecessors(entry).any(|at| last.contains(&at));
            chain = labels(entries, next);
        }
        let shared = |entry: &Entry| {
            let (Some(one), Some(other)) = (before(entry.first), before(entry.second)) else {
                return false;
            };
            one.label != other.label
                && predecessors(one).any(|at| predecessors(other).any(|same| same == at))
        };
        let equal = |entry: &Entry| entry.first == entry.second && entry.first != 0;
        let past = &plan.entries[entries.len()..];
        let met = [
            !entries.is_empty() && !entries.iter().any(linked),
            !chain.is_empty(),
            entries.iter().any(shared),
            entries.iter().any(equal),
            past.iter().any(|entry| *entry != Entry::ZERO),
        ];
        for (count, met) in self.shapes.iter_mut().zip(met) {
            *count += u64::from(met);
        }
    }

    fn note_offer(&mut self, plan: &Plan, answer: &OfferAnswer) {
        let (Some(entries), 0) = (used(plan), answer.refusal) else {
            return;
        };
        let label = answer.label;
        let waits = labels(entries, |entry| entry.stage == WAITING);
        let able = entries.iter().map(|entry| entry.label);
        let able: Vec<u8> = able.filter(|at| can_go(entries, (*at).into())).collect();
        let done = entries.iter().all(|entry| entry.stage == DELIVERED);
        let mut count = |at: usize, met: bool| self.offers[at] += u64::from(met);
        count(0, entries.is_empty());
        count(1, !entries.is_empty() && done);
        count(2, label == 0 && !done);
        if label != 0 {
            count(3, waits.iter().any(|at| *at < label));
            count(4, able.first() != Some(&label));
            count(5, able.last() != Some(&label));
            count(6, able.iter().max() != Some(&label));
        }
    }

    fn note_release(&mut self, plan: &Plan, before: &Floor, label: u32, answer: &ReleaseAnswer) {
        let Some(entries) = used(plan) else {
            return;
        };
        let named = entries.iter().find(|entry| u32::from(entry.label) == label);
        match (answer.refusal, named) {
            (48, None) => self.note_absent(entries, label),
            (48, Some(entry)) => self.note_unready(entries, entry),
            (0, Some(entry)) => {
                let lower = (1..label).any(|at| can_go(entries, at));
                let twice = entry.first == entry.second && entry.first != 0;
                let mut count = |at: usize, met: bool| self.released[at] += u64::from(met);
                count(predecessors(entry).count(), true);
                count(3, twice);
                count(4, lower);
                count(5, answer.number == u32::MAX);
            }
            (refusal, Some(entry)) if before.counters.last == u32::MAX => {
                let full = || {
                    let members = before.members(entry.tile as usize);
                    crate::places::lowest(&before.settings, members).is_none()
                };
                match refusal {
                    4 => self.no_number[0] += 1,
                    5 => self.no_number[1] += 1,
                    31 => self.no_number[2] += 1,
                    33 => {
                        self.no_number[3] += 1;
                        self.no_number[4] += u64::from(full());
                    }
                    _ => {}
                }
            }
            _ => {}
        }
    }

    fn note_absent(&mut self, entries: &[Entry], label: u32) {
        self.not_released[match label {
            _ if entries.is_empty() => 5,
            0 => 0,
            65 => 1,
            256.. if can_go(entries, label - 256) => 2,
            u32::MAX => 3,
            _ => 4,
        }] += 1;
    }

    fn note_unready(&mut self, entries: &[Entry], entry: &Entry) {
        let waits = labels(entries, |entry| entry.stage == WAITING);
        let booked = labels(entries, is_booked);
        let gone = labels(entries, |entry| entry.stage == DELIVERED);
        let among = |set: &BTreeSet<u8>| predecessors(entry).any(|at| set.contains(&at));
        let mut count = |at: usize, met: bool| self.not_released[at] += u64::from(met);
        count(6, is_booked(entry));
        count(7, entry.stage == DELIVERED);
        if entry.stage == WAITING {
            count(8, among(&waits));
            count(9, among(&booked));
            count(
                10,
                gone.contains(&entry.first) && !gone.contains(&entry.second),
            );
        }
    }

    fn note_report(&mut self, plan: &Plan, report: &Report, answer: &PlanAnswer) {
        let (Some(entries), 0) = (used(plan), answer.refusal) else {
            return;
        };
        let after = &answer.plan.entries[..entries.len()];
        let marked = entries
            .iter()
            .zip(after)
            .filter(|(one, other)| one != other);
        self.marked[match marked.count() {
            0 => 0,
            1 => 1,
            2..=4 => 2,
            _ => 3,
        }] += 1;
        let lists = report.deliveries.map(|delivery| {
            let (listed, filling) = delivery.numbers.split_at(delivery.count.into());
            (listed.to_vec(), filling.to_vec())
        });
        let holds = |list: &[u32], which: &dyn Fn(&Entry) -> bool| {
            let mut chosen = entries.iter().filter(|entry| which(entry));
            chosen.any(|entry| list.contains(&entry.number))
        };
        let all: Vec<u32> = lists
            .iter()
            .flat_map(|(listed, _)| listed)
            .copied()
            .collect();
        let past: Vec<u32> = lists
            .iter()
            .flat_map(|(_, filling)| filling)
            .copied()
            .collect();
        let only_past: Vec<u32> = past.into_iter().filter(|at| !all.contains(at)).collect();
        let zero = |entry: &Entry| is_booked(entry) && entry.number == 0;
        let other = |entry: &Entry| is_booked(entry) && entry.number != 0;
        let none = all.iter().any(|at| !holds(&[*at], &|_| true));
        let met = [
            holds(&lists[0].0, &is_booked),
            holds(&lists[1].0, &is_booked),
            holds(&lists[2].0, &is_booked),
            holds(&lists[3].0, &is_booked),
            holds(&all, &zero),
            holds(&only_past, &zero),
            holds(&only_past, &other),
            holds(&all, &|entry| entry.stage == DELIVERED),
            holds(&all, &|entry| entry.stage == WAITING),
            none,
        ];
        for (count, met) in self.listed.iter_mut().zip(met) {
            *count += u64::from(met);
        }
    }

    pub fn note_followed(&mut self, ended: bool, waits: bool, released: u64, reported: u64) {
        let more = [ended.into(), waits.into(), released, reported];
        for (count, more) in self.followed.iter_mut().zip(more) {
            *count += more;
        }
    }

    pub fn add(&mut self, more: &Counts) {
        let add = |counts: &mut [u64], more: &[u64]| {
            for (count, more) in counts.iter_mut().zip(more) {
                *count += more;
            }
        };
        for call in 0..CALLS.len() {
            add(&mut self.claims[call], &more.claims[call]);
            add(&mut self.bad[call], &more.bad[call]);
        }
        add(&mut self.both, &more.both);
        add(&mut self.malformed, &more.malformed);
        add(&mut self.not_released, &more.not_released);
        add(&mut self.released, &more.released);
        add(&mut self.no_number, &more.no_number);
        add(&mut self.offers, &more.offers);
        add(&mut self.stages, &more.stages);
        add(&mut self.marked, &more.marked);
        add(&mut self.listed, &more.listed);
        add(&mut self.shapes, &more.shapes);
        add(&mut self.followed, &more.followed);
    }

    /// Lines of counts, each with its name.
    pub fn lines(&self) -> Vec<(String, Vec<(String, u64)>)> {
        let line = |name: String, names: &[&str], counts: &[u64]| {
            let cells = names.iter().map(ToString::to_string);
            (name, cells.zip(counts.iter().copied()).collect())
        };
        let mut lines = Vec::new();
        for (call, name) in CALLS.iter().enumerate() {
            let entries = format!("entries of plans, {name}:");
            lines.push(line(entries, &CLAIMS, &self.claims[call]));
            let bad = format!("47 for this alone, {name}:");
            lines.push(line(bad, &BAD, &self.bad[call]));
        }
        let rest: [(&str, &[&str], &[u64]); 11] = [
            ("30 where 47 is due too:", &CALLS, &self.both),
            ("30 for this alone:", &MALFORMED, &self.malformed),
            ("48:", &NOT_RELEASED, &self.not_released),
            ("labels released:", &RELEASED, &self.released),
            ("no number left:", &NO_NUMBER, &self.no_number),
            ("labels offered:", &OFFERS, &self.offers),
            ("stage bytes:", &STAGES, &self.stages),
            ("marked by a report:", &MARKED, &self.marked),
            ("listed:", &LISTED, &self.listed),
            ("shapes of plans:", &SHAPES, &self.shapes),
            ("plans followed:", &FOLLOWED, &self.followed),
        ];
        for (name, names, counts) in rest {
            lines.push(line(name.into(), names, counts));
        }
        lines
    }
}

/// What the entries alone are 30 for.
fn malformed_causes(entries: &[Entry]) -> Vec<usize> {
    let mut causes = Vec::new();
    if went_ahead(entries) {
        let undelivered = labels(entries, |entry| entry.stage != DELIVERED);
        let early = |entry: &&Entry| {
            entry.stage != WAITING && predecessors(entry).any(|at| undelivered.contains(&at))
        };
        let early: Vec<&Entry> = entries.iter().filter(early).collect();
        causes.extend(early.into_iter().map(|entry| ahead_of(entries, entry)));
    }
    if share_a_number(entries) {
        causes.push(5);
    }
    causes
}

/// How an entry past waiting is ahead of a predecessor.
fn ahead_of(entries: &[Entry], entry: &Entry) -> usize {
    let named = |other: &&Entry| predecessors(entry).any(|at| at == other.label);
    let named: Vec<&Entry> = entries.iter().filter(named).collect();
    let same = |other: &&&Entry| named.iter().filter(|at| at.label == other.label).count() > 1;
    match named.iter().find(|other| other.stage != DELIVERED) {
        Some(other) if same(&other) => 3,
        Some(other) if other.label == entry.label => 4,
        Some(other) if other.stage == WAITING => 1,
        _ => 2,
    }
}

fn release_causes(plan: &Plan, floor: &Floor) -> Vec<usize> {
    let entries = used(plan).unwrap_or(&[]);
    let mut causes = Vec::new();
    if is_malformed(&convert::to_floor(floor)) {
        causes.push(6);
    }
    if number_out_of_range(entries, u32::MAX) {
        causes.push(7);
    }
    let high = |entry: &Entry| is_booked(entry) && entry.number > floor.counters.last;
    if entries.iter().any(high) {
        causes.push(8);
    }
    causes
}

fn report_causes(report: &Report) -> Vec<usize> {
    let mut causes = Vec::new();
    if lists_too_many(report) {
        let counts = report.deliveries.iter().enumerate();
        let over = counts.filter(|(_, delivery)| delivery.count > 4);
        causes.extend(over.map(|(rank, _)| 9 + rank));
    }
    causes
}

/// What the entries are 47 for.
fn bad_causes(entries: &[Entry]) -> Vec<usize> {
    let all = labels(entries, |_| true);
    let mut causes = Vec::new();
    for (at, entry) in entries.iter().enumerate() {
        match entry.label {
            0 => causes.push(0),
            65 => causes.push(1),
            66.. => causes.push(2),
            _ => {}
        }
        if entries[..at].iter().any(|other| other.label == entry.label) {
            causes.push(3);
        }
        for label in predecessors(entry) {
            match label {
                _ if !all.contains(&label) => causes.push(4),
                _ if label == entry.label && entry.stage == WAITING => causes.push(5),
                _ if label == entry.label => causes.push(6),
                _ if label > entry.label => causes.push(7),
                _ => {}
            }
        }
    }
    causes
}
