//! What would have come of a call that a list doesn't have.

use ceromby::{Floor, FLOORS};
use ceromby_session::Session;

use super::list::Line;
use super::record::{Position, Recorder, Step};
use super::WhatIf;
use crate::paths;

/// The steps of a list with one more call in it.
#[derive(Clone, PartialEq, Debug)]
pub struct Branch {
    /// The call, and where it comes.
    pub what_if: WhatIf,
    /// The call, then the rest of the list.
    pub steps: Vec<Step>,
    /// Steps made of the list and of the branch that are shown beside each
    /// other: the same line, and the same of its rounds.
    pub pairs: Vec<(usize, usize)>,
    /// What differs, in sentences.
    pub says: Vec<String>,
}

/// The sessions that branches begin with.
pub struct Forks<'a> {
    what_ifs: &'a [WhatIf],
    begun: Vec<Option<(Recorder, Position)>>,
}

impl<'a> Forks<'a> {
    pub fn new(what_ifs: &'a [WhatIf]) -> Forks<'a> {
        Forks {
            what_ifs,
            begun: vec![None; what_ifs.len()],
        }
    }

    /// Keeps the session for the branches that begin after this step.
    pub fn take(&mut self, recorder: &Recorder, position: Position) {
        for (what_if, begun) in self.what_ifs.iter().zip(&mut self.begun) {
            if what_if.at == recorder.steps().len() {
                *begun = Some((recorder.fork(), position));
            }
        }
    }

    /// Makes every branch that begins within the list.
    pub fn grow(self, list: &[Line], without: &Recorder) -> Vec<Branch> {
        let begun = self.what_ifs.iter().zip(self.begun);
        begun
            .filter_map(|(what_if, begun)| Some(grow(what_if, begun?, list, without)))
            .collect()
    }
}

fn grow(
    what_if: &WhatIf,
    (mut with, position): (Recorder, Position),
    list: &[Line],
    without: &Recorder,
) -> Branch {
    let before = cut_off(with.session());
    with.call(None, what_if.call.clone());
    let after = cut_off(with.session());
    with.run(list, position, |_, _| {});
    let pairs = beside(what_if.at, without.steps(), with.steps());
    let mut says = vec![deliveries(what_if.at, without.steps(), with.steps())];
    if before != after {
        says.push(format!(
            "No way to a hopper right after the call: {after}; before it: {before}."
        ));
    }
    let (end, end_without) = (cut_off(with.session()), cut_off(without.session()));
    says.push(format!(
        "No way to a hopper at the end: {end}; without the call: {end_without}."
    ));
    Branch {
        what_if: what_if.clone(),
        steps: with.steps().to_vec(),
        pairs,
        says,
    }
}

/// Which steps are shown beside each other, from the branch's call on. Where a
/// line has fewer rounds on one side, that side waits.
fn beside(at: usize, without: &[Step], with: &[Step]) -> Vec<(usize, usize)> {
    let line = |steps: &[Step], done: usize| steps.get(done).and_then(|step| step.line);
    let mut pairs = vec![(at, 1)];
    let (mut main, mut own) = (at, 1);
    loop {
        match (line(without, main), line(with, own)) {
            (None, None) => return pairs,
            (Some(here), Some(there)) if here == there => {
                main += 1;
                own += 1;
            }
            (Some(here), Some(there)) if here > there => own += 1,
            (None, Some(_)) => own += 1,
            (Some(_), _) => main += 1,
        }
        pairs.push((main, own));
    }
}

/// How many are delivered from the call on, and when the last.
fn deliveries(at: usize, without: &[Step], with: &[Step]) -> String {
    let said = |steps: &[Step]| {
        let count: usize = steps.iter().map(Step::delivered).sum();
        match steps.iter().rfind(|step| step.delivered() > 0) {
            None => "none".to_owned(),
            Some(last) => format!("{count}, the last in round {}", last.rounds),
        }
    };
    let rest = without.get(at..).unwrap_or_default();
    let (with, without) = (said(with), said(rest));
    format!("Delivered after step {at}: {with}; without the call: {without}.")
}

/// The canisters that no running way leads from to a hopper.
fn cut_off(session: &Session) -> String {
    let hand = session.hand().map(|hand| (String::new(), hand));
    let aboard = (0..FLOORS as u32)
        .filter_map(|floor| Some((format!(" on floor {floor}"), session.aboard(floor)?)));
    let floors = hand
        .into_iter()
        .chain(aboard)
        .filter_map(|(place, operation)| {
            let numbers = without_way(&operation.floor);
            (!numbers.is_empty()).then(|| few(&numbers) + &place)
        });
    let floors: Vec<String> = floors.collect();
    match floors.is_empty() {
        true => "none".to_owned(),
        false => floors.join(", "),
    }
}

/// Numbers with commas, the first of them where there are many.
fn few(numbers: &[u32]) -> String {
    const SHOWN: usize = 12;
    let first: Vec<String> = numbers.iter().take(SHOWN).map(u32::to_string).collect();
    let more = match numbers.len().saturating_sub(SHOWN) {
        0 => String::new(),
        more => format!(" and {more} more"),
    };
    first.join(", ") + &more
}

/// The numbers on tiles without a live path, rising.
fn without_way(floor: &Floor) -> Vec<u32> {
    let live = paths::live(floor);
    let stuck = floor
        .canisters()
        .filter(|(tile, _)| live & paths::bit(*tile) == 0);
    let mut numbers: Vec<u32> = stuck.map(|(_, canister)| canister.number).collect();
    numbers.sort_unstable();
    numbers
}
