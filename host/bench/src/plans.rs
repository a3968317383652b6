//! Plans to measure on, in both shapes.

use ::ceromby::raw as ceromby;
use oracle::{Entry, Plan, BOOKED, DELIVERED, WAITING};

use crate::floors::Pair;

/// The fill tile of every entry.
pub const TILE: u32 = 4;

pub struct Planned {
    pub name: &'static str,
    pub ours: ceromby::Plan,
    pub theirs: Plan,
}

/// Four numbers for each hopper: 1 to 16.
const fn numbers(rank: u32) -> [u32; 4] {
    [4 * rank + 1, 4 * rank + 2, 4 * rank + 3, 4 * rank + 4]
}

const fn delivery(rank: u32) -> oracle::Delivery {
    oracle::Delivery {
        numbers: numbers(rank),
        count: 4,
    }
}

const fn same(rank: u32) -> ceromby::Delivery {
    ceromby::Delivery {
        numbers: numbers(rank),
        count: 4,
    }
}

pub const THEIRS: oracle::Report = oracle::Report {
    deliveries: [delivery(0), delivery(1), delivery(2), delivery(3)],
    ..oracle::Report::ZERO
};

pub const OURS: ceromby::Report = ceromby::Report {
    grants: [0; 64],
    reasons: [0; 64],
    missing: [0; 64],
    deliveries: [same(0), same(1), same(2), same(3)],
};

/// Labels 1 to 64, of which 64 can go: all wait and none is before another; all
/// others are delivered, each label after the two before it; or the 16 below 64
/// are booked, under 1 to 16.
pub fn stages() -> [Planned; 3] {
    let all = [
        ("64 waiting", WAITING, 0),
        ("64, a chain", DELIVERED, 0),
        ("64, 16 booked", DELIVERED, 16),
    ];
    all.map(|(name, stage, booked)| {
        let mut theirs = Plan {
            count: 64,
            ..Plan::EMPTY
        };
        for (label, entry) in (1..).zip(&mut theirs.entries) {
            let under = (64 - booked..64).contains(&label);
            let linked = stage == DELIVERED && !under && (label < 64 || booked == 0);
            *entry = Entry {
                tile: TILE,
                number: 0,
                label,
                first: if linked && label > 1 { label - 1 } else { 0 },
                second: if linked && label > 2 { label - 2 } else { 0 },
                stage,
            };
            if under {
                entry.stage = BOOKED;
                entry.number = u32::from(label - (63 - booked));
            }
        }
        theirs.entries[63].stage = WAITING;
        Planned {
            name,
            ours: convert::to_plan(&theirs),
            theirs,
        }
    })
}

/// The floor with its last number high enough for the booked ones.
pub fn aboard(mut pair: Pair) -> Pair {
    let last = pair.theirs.counters.last.max(16);
    pair.theirs.counters.last = last;
    pair.ours.counters.last = last;
    pair
}
