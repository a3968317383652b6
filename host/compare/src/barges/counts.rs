//! What the runs met of barges.

use oracle::FLOORS;

use super::{aboard, allowance_fits, is_malformed, Given, Named};
use crate::call::BARGE_NAMES;

/// Sorts of calls: `BARGE_NAMES`.
const SORTS: usize = 5;
const ALLOWANCES: [&str; 8] = [
    "0",
    "1",
    "2 to 4,031",
    "4,032",
    "4,033",
    "more",
    "4,294,967,295",
    "below the total",
];
const NUMBERS: [&str; 8] = ["0", "1", "2", "3", "4", "256", "4,294,967,295", "other"];
/// The total before a booking that a lone floor would accept.
const TOTALS: [&str; 4] = [
    "two or more below the allowance",
    "one below",
    "at it",
    "above it",
];
const ORDERS: [&str; 5] = [
    "30, 49 too",
    "33, 50 too",
    "34, 50 too",
    "40, 50 too",
    "31, 50 too",
];
/// Bookings with so many aboard.
const MOST: [&str; 2] = ["4,031, accepted", "4,032"];
const LISTS: [&str; 3] = ["made", "calls", "booked after a delivery made room"];

#[derive(Default)]
pub struct Counts {
    /// Accepted calls of each sort on each floor, and all by the number named.
    accepted: [[u64; FLOORS]; SORTS],
    numbers: [[u64; NUMBERS.len()]; SORTS],
    allowances: [u64; ALLOWANCES.len()],
    /// The one malformed floor, by the floor that is named, or none of them.
    malformed: [[u64; FLOORS]; FLOORS + 1],
    totals: [[u64; TOTALS.len()]; 2],
    orders: [u64; ORDERS.len()],
    /// Accepted stops, repairs and rounds with nothing left of the allowance.
    loaded: [u64; 3],
    delivered: [u64; FLOORS],
    most: [u64; MOST.len()],
    lists: [u64; LISTS.len()],
}

impl Counts {
    pub fn note(&mut self, named: &Named, given: &Given) {
        let barge = &named.barge;
        let sort = named.sort();
        let at = (named.floor as usize).min(FLOORS);
        self.numbers[sort][match named.floor {
            floor @ 0..=4 => floor as usize,
            256 => 5,
            u32::MAX => 6,
            _ => 7,
        }] += 1;
        self.allowances[match barge.allowance {
            0 => 0,
            1 => 1,
            4_032 => 3,
            4_033 => 4,
            2..=4_031 => 2,
            u32::MAX => 6,
            _ => 5,
        }] += 1;
        if given.refusal == 30 {
            self.note_malformed(named, at);
            return;
        }
        let (total, allowance) = (aboard(barge), u64::from(barge.allowance));
        let full = total >= allowance;
        self.most[0] += u64::from(sort < 2 && total == 4_031 && given.refusal == 0);
        self.most[1] += u64::from(sort < 2 && total == 4_032);
        self.allowances[7] += u64::from(total > allowance);
        match given.refusal {
            0 | 50 if sort < 2 => {
                self.totals[sort][match total {
                    _ if total > allowance => 3,
                    _ if total == allowance => 2,
                    _ if total + 1 == allowance => 1,
                    _ => 0,
                }] += 1;
            }
            0 => self.loaded[sort - 2] += u64::from(full),
            33 => self.orders[1] += u64::from(full),
            34 => self.orders[2] += u64::from(full),
            40 => self.orders[3] += u64::from(full),
            31 => self.orders[4] += u64::from(full && sort < 2),
            _ => {}
        }
        if given.refusal == 0 && at < FLOORS {
            self.accepted[sort][at] += 1;
            self.delivered[at] += given.report.delivered().count() as u64;
        }
    }

    fn note_malformed(&mut self, named: &Named, at: usize) {
        self.orders[0] += u64::from(at == FLOORS);
        let floors = named.barge.floors.iter().enumerate();
        let bad = floors.filter(|(_, floor)| is_malformed(floor));
        let bad: Vec<usize> = bad.map(|(place, _)| place).collect();
        if let ([place], true) = (&bad[..], allowance_fits(&named.barge)) {
            self.malformed[at][*place] += 1;
        }
    }

    pub fn note_list(&mut self, calls: u64, freed: u64) {
        for (count, more) in self.lists.iter_mut().zip([1, calls, freed]) {
            *count += more;
        }
    }

    pub fn add(&mut self, more: &Counts) {
        let add = |counts: &mut [u64], more: &[u64]| {
            for (count, more) in counts.iter_mut().zip(more) {
                *count += more;
            }
        };
        for sort in 0..SORTS {
            add(&mut self.accepted[sort], &more.accepted[sort]);
            add(&mut self.numbers[sort], &more.numbers[sort]);
        }
        for at in 0..=FLOORS {
            add(&mut self.malformed[at], &more.malformed[at]);
        }
        for sort in 0..2 {
            add(&mut self.totals[sort], &more.totals[sort]);
        }
        add(&mut self.allowances, &more.allowances);
        add(&mut self.orders, &more.orders);
        add(&mut self.loaded, &more.loaded);
        add(&mut self.delivered, &more.delivered);
        add(&mut self.most, &more.most);
        add(&mut self.lists, &more.lists);
    }

    /// Lines of counts, each with its name.
    pub fn lines(&self) -> Vec<(String, Vec<(String, u64)>)> {
        let line = |name: String, names: &[&str], counts: &[u64]| {
            let cells = names.iter().map(ToString::to_string);
            (name, cells.zip(counts.iter().copied()).collect())
        };
        let floors = &NUMBERS[..FLOORS];
        let mut lines = Vec::new();
        for (sort, name) in BARGE_NAMES.iter().enumerate() {
            let accepted = &self.accepted[sort];
            lines.push(line(format!("{name}, accepted on:"), floors, accepted));
            let numbers = &self.numbers[sort];
            lines.push(line(format!("{name}, floor named:"), &NUMBERS, numbers));
        }
        for (at, counts) in self.malformed.iter().enumerate() {
            let named = match at {
                FLOORS => "no floor".into(),
                at => format!("floor {at}"),
            };
            let name = format!("one malformed floor, {named} named:");
            lines.push(line(name, floors, counts));
        }
        for (sort, counts) in self.totals.iter().enumerate() {
            let name = format!("{}, total:", BARGE_NAMES[sort]);
            lines.push(line(name, &TOTALS, counts));
        }
        let rest: [(&str, &[&str], &[u64]); 6] = [
            ("allowances:", &ALLOWANCES, &self.allowances),
            ("order on a barge:", &ORDERS, &self.orders),
            (
                "accepted with nothing left:",
                &BARGE_NAMES[2..],
                &self.loaded,
            ),
            ("delivered on floor:", floors, &self.delivered),
            ("bookings with so many aboard:", &MOST, &self.most),
            ("lists on barges:", &LISTS, &self.lists),
        ];
        for (name, names, counts) in rest {
            lines.push(line(name.into(), names, counts));
        }
        lines
    }
}
