//! Barges to measure on, in both shapes.

use ::ceromby::raw as ceromby;

use crate::floors::{both_shapes, Pair};

/// Four floors alike, with the lone one and what to book there.
pub struct Four {
    pub lone: Pair,
    pub ours: ceromby::Barge,
    pub theirs: oracle::Barge,
}

/// Four fresh floors of 4 x 4 tiles, and four full ones of 8 x 8.
pub fn fours() -> Vec<Four> {
    let ends = |pair: &Pair| ["4 x 4 fresh", "8 x 8 full, near"].contains(&pair.name.as_str());
    let floors = both_shapes().into_iter().filter(ends);
    floors.map(four).collect()
}

fn four(lone: Pair) -> Four {
    let allowance = oracle::MAX_ALLOWANCE;
    Four {
        ours: ceromby::Barge {
            floors: [lone.ours; 4],
            allowance,
        },
        theirs: oracle::Barge {
            floors: [lone.theirs; 4],
            allowance,
        },
        lone,
    }
}

impl Four {
    /// The same with the tile stopped on each floor.
    pub fn stopped(&self) -> Four {
        let tile = self.lone.tile;
        let mut lone = Pair {
            name: self.lone.name.clone(),
            ..self.lone
        };
        lone.ours = ceromby::stop(&lone.ours, tile).floor;
        lone.theirs = oracle::stop(&lone.theirs, tile).floor;
        four(lone)
    }
}
