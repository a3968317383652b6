//! What the runs met of several hoppers.

use oracle::{Floor, Report, MAX_HOPPERS};

use crate::first::First;
use crate::tally::add;

/// The answers of a load.
const ANSWERS: [u8; 8] = [0, 9, 10, 11, 1, 2, 3, 12];

/// The faults about hoppers that an image can have, each with its refusal and
/// a test for images that were refused by that.
const FAULTS: [(&str, u8, fn(&First) -> bool); 8] = [
    ("hopper byte not the lowest", 11, |first| {
        first.long && first.fixed == 0 && first.hoppers != 0 && !first.lowest_fits()
    }),
    ("no tile, any hopper byte", 2, |first| {
        first.long && first.on_floor_count() == Some(0) && first.hopper != 0 && first.fill_fits()
    }),
    ("one tile", 2, |first| {
        first.long && first.on_floor_count() == Some(1) && first.fill_fits()
    }),
    ("more than four", 2, |first| {
        first.long && first.on_floor_count() > Some(4) && first.fill_fits()
    }),
    ("one off the floor", 2, |first| {
        let count = first.hoppers.count_ones();
        first.long && (2..=4).contains(&count) && first.fill_fits()
    }),
    ("fill bit for another than the lowest", 2, |first| {
        let count = first.on_floor_count().unwrap_or(0);
        first.long && (2..=4).contains(&count) && first.fill_fits_lowest()
    }),
    ("short record, off the floor", 2, |first| {
        !first.long && first.on_floor_count() != Some(1) && first.fill_fits()
    }),
    ("counters for another number of hoppers", 11, |first| {
        first.fixed == 0 && (!first.long || first.lowest_fits()) && first.other_counters
    }),
];

#[derive(Default)]
pub struct Counts {
    /// By the number of hoppers.
    floors: [u64; MAX_HOPPERS + 1],
    /// Rounds by the number of hoppers that took something in.
    rounds: [u64; MAX_HOPPERS + 1],
    /// Answers by the length that the first record gives itself, 20 or 28.
    images: [[u64; ANSWERS.len()]; 2],
    faults: [u64; FAULTS.len()],
}

impl Counts {
    /// Notes a floor that a case begins with, or that was made or loaded.
    pub fn note_floor(&mut self, floor: &Floor) {
        self.floors[floor.settings.hopper_count().min(MAX_HOPPERS)] += 1;
    }

    pub fn note_report(&mut self, report: &Report) {
        let took = report.deliveries.iter().filter(|at| at.count > 0).count();
        self.rounds[took] += 1;
    }

    pub fn note_image(&mut self, bytes: &[u8], refusal: u8) {
        let answer = ANSWERS.iter().position(|answer| *answer == refusal);
        if let (Some(answer), [length @ (20 | 28), 0, ..]) = (answer, bytes) {
            self.images[usize::from(*length == 28)][answer] += 1;
        }
        let Some(first) = First::of(bytes) else {
            return;
        };
        for (count, (_, due, test)) in self.faults.iter_mut().zip(&FAULTS) {
            *count += u64::from(refusal == *due && test(&first));
        }
    }

    pub fn add(&mut self, more: &Counts) {
        add(&mut self.floors, &more.floors);
        add(&mut self.rounds, &more.rounds);
        add(&mut self.faults, &more.faults);
        for (images, more) in self.images.iter_mut().zip(&more.images) {
            add(images, more);
        }
    }

    /// Lines of counts, each with its name.
    pub fn lines(&self) -> Vec<(String, Vec<(String, u64)>)> {
        let by_number = |name: &str, counts: &[u64]| {
            let cells = (1..).zip(&counts[1..]).map(|(at, count)| (at, *count));
            (name.to_string(), named(cells))
        };
        let mut lines = vec![
            by_number("floors by number of hoppers:", &self.floors),
            by_number("rounds that delivered at so many:", &self.rounds),
        ];
        for (length, counts) in [20, 28].into_iter().zip(self.images) {
            let name = format!("images with {length} bytes of settings:");
            lines.push((name, named(ANSWERS.into_iter().zip(counts))));
        }
        let faults = FAULTS.iter().zip(self.faults);
        let faults = faults.map(|((name, due, _), count)| (format!("{name} ({due})"), count));
        lines.push(("images with faults about hoppers:".into(), named(faults)));
        lines
    }
}

fn named<T: ToString>(cells: impl IntoIterator<Item = (T, u64)>) -> Vec<(String, u64)> {
    let named = |(name, count): (T, u64)| (name.to_string(), count);
    cells.into_iter().map(named).collect()
}
