//! What the runs met.

use std::fmt::Display;
use std::ops::Range;

use oracle::{Floor, Grid, RoundAnswer, Side};

use crate::call::{Call, Outcome, BARGE, BOUND, NAMES, OFFER};
use crate::{
    arrows, barges, blank, book_lists, bounds, exchange, hoppers, layouts, page, places, plans,
    reasons, throughput, waits,
};

/// A line of counts: its name, and each count with its own.
pub fn line(name: &str, names: &[&str], counts: &[u64]) -> (String, Vec<(String, u64)>) {
    let cells = names.iter().map(ToString::to_string);
    (
        name.to_string(),
        cells.zip(counts.iter().copied()).collect(),
    )
}

/// Adds counts one by one.
pub fn add(counts: &mut [u64], more: &[u64]) {
    for (count, more) in counts.iter_mut().zip(more) {
        *count += more;
    }
}

/// The answers that each call can give, in the order of `NAMES`.
const ANSWERS: [&[u8]; 24] = [
    &[0, 1, 2, 3],
    &[0, 30, 4, 5, 6, 7, 31, 33, 34],
    &[0, 30, 4, 8, 31],
    &[0, 30, 4, 32],
    &[0, 30],
    &[0, 30, 4],
    &[0, 30, 13],
    &[0, 9, 10, 11, 1, 2, 3, 12],
    &[0, 30, 44, 46],
    &[0, 30, 44, 45],
    &[0, 30, 44, 45],
    &[0, 30, 4, 5, 6, 31, 33, 40],
    &[0, 42],
    &[0, 30, 41],
    &[0, 30, 43],
    &[0, 30],
    &[0, 30, 47],
    &[0, 30, 47, 48, 4, 5, 31, 33, 40],
    &[0, 30, 47],
    &[0, 30, 49, 4, 5, 6, 7, 31, 33, 34, 50],
    &[0, 30, 49, 4, 5, 6, 31, 33, 40, 50],
    &[0, 30, 49, 4, 8, 31],
    &[0, 30, 49, 4, 32],
    &[0, 30, 49],
];

/// The groups of lengths: those up to 65, and two more.
pub const fn lengths(more: [&'static str; 2]) -> [&'static str; 8] {
    ["0", "1", "2 to 62", "63", "64", "65", more[0], more[1]]
}

/// The group of a length; over 65 it is `over`.
pub fn length_group(length: usize, over: usize) -> usize {
    match length {
        0 | 1 => length,
        2..=62 => 2,
        63..=65 => length - 60,
        _ => over,
    }
}

/// Counts as lines of text.
#[derive(Default)]
pub struct Lines {
    pub all: Vec<String>,
    /// Those that are 0, or less than is required.
    pub missing: Vec<String>,
}

impl Lines {
    /// A line of several counts, none of which may be 0.
    fn row<T: Display>(&mut self, name: &str, cells: impl IntoIterator<Item = (T, u64)>) {
        let mut line = name.to_string();
        for (at, (cell, count)) in cells.into_iter().enumerate() {
            let between = if at == 0 { " " } else { "; " };
            line += &format!("{between}{cell}: {count}");
            if count == 0 {
                let name = name.trim_end();
                self.missing.push(format!("{name} {cell}: never"));
            }
        }
        self.all.push(line);
    }

    /// A line of one count, and the least that it may be.
    pub fn event(&mut self, name: &str, count: u64, least: u64) {
        self.all.push(format!("{name}: {count}"));
        match count {
            _ if count >= least => {}
            0 => self.missing.push(format!("{name}: never")),
            _ => {
                let text = format!("{name}: {count}, {least} are required");
                self.missing.push(text);
            }
        }
    }

    /// Prints all of them, and again those that are missing.
    pub fn print(&self) {
        for line in &self.all {
            println!("{line}");
        }
        for line in &self.missing {
            println!("missing: {line}");
        }
    }

    /// What a run's last line says of those that are missing.
    pub fn verdict(&self) -> String {
        match self.missing.len() {
            0 => "no difference".into(),
            count => format!("no difference, but {count} of the above are missing"),
        }
    }
}

#[derive(Default)]
pub struct Tally {
    pub calls: u64,
    pub good_images: u64,
    pub damaged_images: u64,
    pub lists: u64,
    pub drained: u64,
    pub closest: f64,
    pub known_damage: u64,
    pub exchanges: exchange::Counts,
    pub waits: waits::Counts,
    pub hoppers: hoppers::Counts,
    reasons: reasons::Counts,
    pub layouts: layouts::Counts,
    blank: blank::Counts,
    pub places: places::Counts,
    book_lists: book_lists::Counts,
    pub throughput: throughput::Counts,
    page: page::Counts,
    pub bounds: bounds::Counts,
    pub plans: plans::Counts,
    pub barges: barges::Counts,
    pub settled: u64,
    /// Arrows kept and lists held to the bound in the runs for single requests.
    tied: [u64; 2],
    /// Calls of the runs for single requests.
    pub further: u64,
    answers: Vec<[u64; 256]>,
    crossings: [u64; 4],
    withheld: u64,
    deliveries: [u64; 5],
    sixteen: u64,
    mutual: u64,
    full: u64,
    kept: u64,
}

impl Tally {
    pub fn new() -> Tally {
        Tally {
            answers: vec![[0; 256]; NAMES.len()],
            ..Tally::default()
        }
    }

    /// Takes over what the runs for single requests met.
    pub fn add(&mut self, further: Tally) {
        self.take_plans(&further);
        self.take_barges(&further);
        self.take_bounds(&further);
        self.exchanges = further.exchanges;
        self.waits.add(&further.waits);
        self.hoppers.add(&further.hoppers);
        self.reasons.add(&further.reasons);
        self.layouts.add(&further.layouts);
        self.blank.add(&further.blank);
        self.places.add(&further.places);
        self.book_lists.add(&further.book_lists);
        self.throughput.add(&further.throughput);
        self.settled += further.settled;
        self.tied = [further.kept, further.drained];
        self.closest = self.closest.max(further.closest);
        self.further = further.calls;
    }

    /// Takes over what a run met of plans, and no more.
    pub fn take_plans(&mut self, own: &Tally) {
        self.plans.add(&own.plans);
        self.take_answers(own, OFFER..BARGE);
    }

    /// Takes over what a run met of barges, and no more.
    pub fn take_barges(&mut self, own: &Tally) {
        self.barges.add(&own.barges);
        self.take_answers(own, BARGE..NAMES.len());
    }

    /// Takes over what a run met of bounds, and no more.
    pub fn take_bounds(&mut self, own: &Tally) {
        self.bounds.add(&own.bounds);
        self.take_answers(own, BOUND..OFFER);
    }

    fn take_answers(&mut self, own: &Tally, kinds: Range<usize>) {
        for kind in kinds {
            for (count, more) in self.answers[kind].iter_mut().zip(own.answers[kind]) {
                *count += more;
            }
        }
    }

    pub fn note(&mut self, before: &Floor, call: &Call, outcome: &Outcome) {
        self.answers[call.kind()][usize::from(outcome.refusal())] += 1;
        if let Call::Load { bytes } = call {
            self.hoppers.note_image(bytes, outcome.refusal());
            self.layouts.images.note(bytes, outcome.refusal());
            self.blank.note_load(bytes);
        }
        if let (Call::Feed { record, count }, Outcome::Fed(answer)) = (call, outcome) {
            self.throughput.note(record, *count, answer);
        }
        if let Call::Page { size } = call {
            self.page.note(before, *size, outcome.refusal());
        }
        if let Outcome::Bounded(answer) = outcome {
            self.bounds.note(before, answer);
        }
        if let (Call::Barge(named), Outcome::OnBarge(given)) = (call, outcome) {
            self.barges.note(named, given);
        }
        if call.takes_a_plan() {
            self.plans.note(before, call, outcome);
        }
        self.layouts.note(before, call, outcome.refusal());
        if let (Call::BookAnywhere { tile, number }, Outcome::Placed(answer)) = (call, outcome) {
            self.places.note(before, *tile, *number, answer);
        }
        if let Outcome::Listed(answer, list) = outcome {
            self.book_lists.note(before, list, answer.refusal);
        }
        match (outcome, call) {
            _ if outcome.refusal() != 0 => {}
            (Outcome::Round(answer), _) => self.note_round(before, answer),
            (Outcome::Answer(answer), Call::Fresh { .. } | Call::Load { .. }) => {
                self.hoppers.note_floor(&answer.floor);
            }
            _ => {}
        }
    }

    fn note_round(&mut self, before: &Floor, answer: &RoundAnswer) {
        let grid = Grid::of(&before.settings);
        let grants = &answer.report.grants;
        self.kept += arrows::kept(before, &answer.floor);
        self.hoppers.note_report(&answer.report);
        self.reasons.note(before, answer);
        self.layouts.note_round(before);
        self.blank.note_round(before, &answer.report);
        for delivery in &answer.report.deliveries {
            self.deliveries[usize::from(delivery.count).min(4)] += 1;
        }
        let used = &before.tiles[..before.settings.tile_count()];
        self.sixteen += u64::from(used.iter().any(|tile| tile.count == 16));
        let held: u32 = used.iter().map(|tile| u32::from(tile.count)).sum();
        let room = 64 - before.settings.hopper_count() as u32;
        self.full += u64::from(used.len() == 64 && held == 16 * room);
        for spot in grid.spots() {
            let Some(side) = Side::from_code(grants[spot.tile]) else {
                self.withheld += u64::from(answer.floor.tiles[spot.tile].token != 0);
                continue;
            };
            let Some(there) = grid.neighbour(spot, side) else {
                continue;
            };
            let back = side.opposite().code();
            self.mutual += u64::from(spot.tile < there && grants[there] == back);
            let stays = |number| {
                let after = answer.floor.members(there);
                after.iter().any(|canister| canister.number == number)
            };
            for canister in before.members(there) {
                self.crossings[usize::from(back) - 1] += u64::from(!stays(canister.number));
            }
        }
    }

    /// All counts.
    pub fn lines(&self) -> Lines {
        let mut lines = Lines::default();
        for ((name, answers), counts) in NAMES.iter().zip(ANSWERS).zip(&self.answers) {
            let cells = answers.iter().map(|at| (*at, counts[usize::from(*at)]));
            lines.row(&format!("{name:14}"), cells);
        }
        let rows = [
            self.exchanges.lines(),
            self.waits.lines(),
            self.reasons.lines(),
            self.layouts.lines(),
            self.places.lines(),
        ];
        for (name, cells) in rows.into_iter().flatten() {
            lines.row(&name, cells);
        }
        let rows = [
            self.hoppers.lines(),
            self.book_lists.lines(),
            self.throughput.lines(),
            self.page.lines(),
            self.bounds.lines(),
            self.plans.lines(),
            self.barges.lines(),
        ];
        for (name, cells) in rows.into_iter().flatten() {
            lines.row(&name, cells);
        }
        for (name, count) in self.events() {
            lines.event(&name, count, 1);
        }
        let sizes = ("floor sizes that had a page", self.page.sizes(), 63);
        let spent = ("floors run up to their bound", self.bounds.spent(), 200);
        for (name, count, least) in self.blank.events().into_iter().chain([sizes, spent]) {
            lines.event(name, count, least);
        }
        let closest = format!("rounds used of the bound, at most: {:.3}", self.closest);
        lines.all.push(closest);
        lines
    }

    /// What else must have occurred.
    fn events(&self) -> Vec<(String, u64)> {
        let sides = ["west", "south", "north", "east"].iter();
        let crossings = sides.zip(self.crossings);
        let mut events: Vec<(String, u64)> = crossings
            .map(|(side, count)| (format!("crossings to the {side}"), count))
            .collect();
        events.push(("grants withheld for want of a gap".into(), self.withheld));
        for at_once in 1..=4 {
            let name = format!("{at_once} delivered at a hopper in a round");
            events.push((name, self.deliveries[at_once]));
        }
        let more = [
            ("rounds with a tile of sixteen", self.sixteen),
            ("pairs of tiles granting each other", self.mutual),
            ("rounds on a full 8 x 8 floor", self.full),
            ("arrows kept against the order of ties", self.kept),
            ("the same in runs for single requests", self.tied[0]),
            ("rounds on settled floors", self.settled),
            ("lists held to demand 3", self.lists),
            ("further lists held to the bound", self.drained),
            ("such lists in runs for single requests", self.tied[1]),
            ("floors with damage that must be 30", self.known_damage),
            ("good images", self.good_images),
            ("damaged images", self.damaged_images),
            ("calls", self.calls),
            ("further calls, for single requests", self.further),
        ];
        events.extend(more.map(|(name, count)| (name.into(), count)));
        events
    }
}

#[cfg(test)]
mod tests {
    use super::Lines;

    #[test]
    fn a_count_of_zero_is_missing() {
        let mut lines = Lines::default();
        lines.row("stop  ", [(0, 3), (8, 0)]);
        lines.event("crossings", 0, 1);
        assert_eq!(lines.all, ["stop   0: 3; 8: 0", "crossings: 0"]);
        assert_eq!(lines.missing, ["stop 8: never", "crossings: never"]);
    }

    #[test]
    fn a_count_below_the_least_is_missing() {
        let mut lines = Lines::default();
        lines.event("loads", 999, 1_000);
        lines.event("pages", 1_000, 1_000);
        assert_eq!(lines.missing, ["loads: 999, 1000 are required"]);
    }
}
