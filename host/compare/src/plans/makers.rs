//! Plans, labels and reports for the runs.

use oracle::random::{self, Rng};
use oracle::{Delivery, Entry, Floor, Plan, Report, BOOKED, DELIVERED, WAITING};

use super::{can_go, is_booked, shown};

/// The fill tiles of a floor.
fn fill_tiles(floor: &Floor) -> Vec<u32> {
    let fill = |tile: &u32| floor.settings.is_source(*tile as usize);
    (0..64).filter(fill).collect()
}

/// A plan whose entries all wait, of so many labels at most.
pub fn new_plan(rng: &mut Rng, floor: &Floor, most: u64) -> Plan {
    let count = rng.range(1, most) as usize;
    plan_of(rng, floor, count)
}

/// Any plan for a floor, sound or not.
pub fn any_plan(rng: &mut Rng, floor: &Floor) -> Plan {
    if rng.chance(1, 12) {
        return garbage(rng);
    }
    let count = match rng.below(16) {
        0 => 0,
        1 => 1,
        2 => 63,
        3 => 64,
        4 => rng.range(13, 62),
        _ => rng.range(2, 12),
    };
    let mut plan = plan_of(rng, floor, count as usize);
    advance(rng, floor, &mut plan);
    if rng.chance(1, 4) {
        for entry in &mut plan.entries[count as usize..] {
            *entry = any_entry(rng);
        }
    }
    for _ in 0..rng.pick(&[0, 0, 0, 1, 1, 2]) {
        spoil(rng, &mut plan);
    }
    plan
}

/// The floor as if number 4,294,967,295, or at times the one before, had been
/// booked.
pub fn last_number_used(rng: &mut Rng, mut floor: Floor) -> Floor {
    let last = rng.pick(&[u32::MAX, u32::MAX, u32::MAX - 1]);
    floor.counters.last = floor.counters.last.max(last);
    floor
}

/// Labels in any order that all wait, with lower ones before them.
fn plan_of(rng: &mut Rng, floor: &Floor, count: usize) -> Plan {
    let mut labels: Vec<u8> = (1..=64).collect();
    shuffle(rng, &mut labels);
    labels.truncate(count);
    let tiles = fill_tiles(floor);
    let shape = rng.below(5);
    let mut plan = Plan {
        count: count as u32,
        ..Plan::EMPTY
    };
    let mut rising = labels.clone();
    rising.sort_unstable();
    for (entry, label) in plan.entries.iter_mut().zip(&labels) {
        let rank = rising.partition_point(|other| other < label);
        let (first, second) = before(rng, &rising[..rank], shape);
        let tile = match tiles.is_empty() || rng.chance(1, 12) {
            true => random::any_tile(rng, floor),
            false => rng.pick(&tiles),
        };
        *entry = Entry {
            tile,
            number: rng.pick(&[0, 0, 1, floor.counters.last]),
            label: *label,
            first,
            second,
            stage: WAITING,
        };
    }
    plan
}

/// The predecessors of a label with the given ones below it: none, those of a
/// chain, of diamonds one after the other, or any.
fn before(rng: &mut Rng, lower: &[u8], shape: u64) -> (u8, u8) {
    let rank = lower.len();
    match shape {
        _ if rank == 0 => (0, 0),
        0 => (0, 0),
        1 => match rng.below(4) {
            0 => (0, lower[rank - 1]),
            1 => (lower[rank - 1], lower[rank - 1]),
            _ => (lower[rank - 1], 0),
        },
        // One, two beside each other, one, two beside each other ...
        2 => match rank % 3 {
            0 => (lower[rank - 2], lower[rank - 1]),
            at => (0, lower[rank - at]),
        },
        _ => {
            let mut any = || match rng.chance(1, 3) {
                true => 0,
                false => rng.pick(lower),
            };
            (any(), any())
        }
    }
}

/// Lets some entries be booked or delivered, each after its predecessors.
fn advance(rng: &mut Rng, floor: &Floor, plan: &mut Plan) {
    let (gone, under) = (rng.below(5), rng.below(4));
    let last = floor.counters.last;
    let far = rng.chance(1, 4);
    let mut number = match far {
        true => rng.draw() as u32,
        false => last,
    };
    let mut order: Vec<usize> = (0..plan.count as usize).collect();
    order.sort_by_key(|at| plan.entries[*at].label);
    for at in order {
        let label = plan.entries[at].label;
        if !can_go(shown(plan), label.into()) {
            continue;
        }
        let entry = &mut plan.entries[at];
        if rng.chance(gone, 4) {
            entry.stage = DELIVERED;
            entry.number = rng.pick(&[0, 1, number, last]);
        } else if rng.chance(under, 4) {
            entry.stage = match rng.below(4) {
                0 => rng.range(3, 255) as u8,
                1 => rng.pick(&[3, 255]),
                _ => BOOKED,
            };
            entry.number = number;
            number = number.wrapping_sub(1);
        }
    }
}

fn any_entry(rng: &mut Rng) -> Entry {
    let bits = rng.draw();
    Entry {
        tile: rng.below(66) as u32,
        number: rng.below(6) as u32,
        label: bits as u8 % 70,
        first: (bits >> 8) as u8 % 70,
        second: (bits >> 16) as u8 % 70,
        stage: (bits >> 24) as u8 % 4,
    }
}

/// Any bytes, with few entries so that at times nothing is wrong.
fn garbage(rng: &mut Rng) -> Plan {
    let mut plan = Plan::EMPTY;
    for entry in &mut plan.entries {
        let (one, other) = (rng.draw(), rng.draw());
        *entry = match rng.chance(1, 2) {
            true => any_entry(rng),
            false => Entry {
                tile: one as u32,
                number: (one >> 32) as u32,
                label: other as u8,
                first: (other >> 8) as u8,
                second: (other >> 16) as u8,
                stage: (other >> 24) as u8,
            },
        };
    }
    plan.count = match rng.below(4) {
        0 => rng.draw() as u32,
        1 => rng.below(70) as u32,
        _ => rng.below(4) as u32,
    };
    plan
}

/// Changes one thing, mostly so that the plan is 30 or 47.
fn spoil(rng: &mut Rng, plan: &mut Plan) {
    let count = shown(plan).len() as u64;
    if count == 0 || rng.chance(1, 12) {
        plan.count = rng.pick(&[65, 65, 66, 255, 256, 1 << 16, u32::MAX, u32::MAX]);
        return;
    }
    let (at, other) = (rng.below(count) as usize, rng.below(count) as usize);
    let twin = plan.entries[other];
    let own = plan.entries[at].label;
    let entry = &mut plan.entries[at];
    match rng.below(12) {
        0 => entry.label = rng.pick(&[0, 65, 65, 66, 255]),
        1 => entry.label = twin.label,
        2 => *predecessor(rng, entry) = own,
        3 => *predecessor(rng, entry) = rng.pick(&[64, 65, 128, 255]),
        4 => *predecessor(rng, entry) = rng.range(1, 64) as u8,
        5 => *predecessor(rng, entry) = twin.label,
        6 => entry.stage = rng.pick(&[BOOKED, DELIVERED, WAITING]),
        7 => entry.stage = rng.draw() as u8,
        8 => (entry.number, entry.stage) = (twin.number, twin.stage),
        9 if is_booked(entry) => entry.number = rng.pick(&[0, 0, u32::MAX]),
        10 => {
            let stage = rng.pick(&[WAITING, BOOKED, DELIVERED]);
            *entry = Entry { stage, ..twin };
        }
        _ => {
            *predecessor(rng, entry) = own;
            entry.stage = rng.pick(&[WAITING, DELIVERED, BOOKED]);
        }
    }
}

fn predecessor<'a>(rng: &mut Rng, entry: &'a mut Entry) -> &'a mut u8 {
    match rng.chance(1, 2) {
        true => &mut entry.first,
        false => &mut entry.second,
    }
}

fn shuffle<T>(rng: &mut Rng, items: &mut [T]) {
    for end in (1..items.len()).rev() {
        items.swap(end, rng.below(end as u64 + 1) as usize);
    }
}

/// A label to ask for: one that can go, any of the plan, or one that no plan has.
pub fn any_label(rng: &mut Rng, plan: &Plan) -> u32 {
    let entries = shown(plan);
    let able: Vec<u32> = (1..=64).filter(|label| can_go(entries, *label)).collect();
    let known: Vec<u32> = entries.iter().map(|entry| entry.label.into()).collect();
    match rng.below(24) {
        0 => rng.pick(&[0, 65, 255, 256, u32::MAX]),
        1 => 256 + able.first().copied().unwrap_or(5),
        2 => rng.range(0, 70) as u32,
        3..=9 if !known.is_empty() => rng.pick(&known),
        _ if !able.is_empty() => rng.pick(&able),
        _ => rng.range(1, 64) as u32,
    }
}

/// A report that lists booked numbers and others, at times with a count above 4
/// or with numbers past the count.
pub fn any_report(rng: &mut Rng, plan: &Plan) -> Report {
    let mut numbers: Vec<u32> = shown(plan).iter().map(|entry| entry.number).collect();
    let booked = shown(plan).iter().filter(|entry| is_booked(entry));
    let booked: Vec<u32> = booked.map(|entry| entry.number).collect();
    for _ in 0..3 {
        numbers.extend_from_slice(&booked);
    }
    numbers.extend([0, 1, rng.draw() as u32]);
    let mut report = Report::ZERO;
    for at in 0..64 {
        report.grants[at] = rng.draw() as u8;
        report.missing[at] = rng.draw() as u16;
    }
    for delivery in &mut report.deliveries {
        let count = rng.pick(&[0, 0, 1, 2, 3, 4]);
        *delivery = Delivery {
            numbers: [(); 4].map(|()| rng.pick(&numbers)),
            count,
        };
        if rng.chance(3, 4) {
            delivery.numbers[count.into()..].fill(0);
        }
    }
    if rng.chance(1, 6) {
        let rank = rng.below(4) as usize;
        report.deliveries[rank].count = rng.pick(&[5, 5, 6, 255]);
    }
    report
}
