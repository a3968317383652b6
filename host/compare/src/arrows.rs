//! Arrows between neighbours that are equally near.

use oracle::random::Rng;
use oracle::{Floor, Grid, Side, Spot, NONE};

use crate::call::{Call, Outcome, Trouble};
use crate::makers;

/// For each side, whether the neighbour there is a nearest one; none without a distance.
fn nearest(floor: &Floor, spot: Spot) -> [bool; 4] {
    let grid = Grid::of(&floor.settings);
    let distances = Side::ALL.map(|side| {
        let there = grid.neighbour(spot, side);
        there.map_or(NONE, |there| floor.tiles[there].distance)
    });
    let least = distances.into_iter().min().unwrap_or(NONE);
    distances.map(|distance| distance == least && least != NONE)
}

/// Arrows that a round kept where the order of ties would have turned them.
pub fn kept(before: &Floor, after: &Floor) -> u64 {
    let against_order = |spot: &Spot| {
        let arrow = after.tiles[spot.tile].next;
        let near = nearest(before, *spot);
        let first = near.iter().position(|near| *near).unwrap_or(0);
        arrow == before.tiles[spot.tile].next
            && usize::from(arrow) > first + 1
            && near[usize::from(arrow) - 1]
    };
    let spots = Grid::of(&before.settings).spots();
    spots.filter(against_order).count() as u64
}

/// Whether the latest round changed no distance, and no stop or repair came
/// since, by itself or in a recall.
#[derive(Default)]
pub struct Settled(bool);

impl Settled {
    /// Notes an accepted call. On a settled floor a round turns no arrow.
    pub fn note(
        &mut self,
        before: &Floor,
        call: &Call,
        outcome: &Outcome,
        rounds: &mut u64,
    ) -> Result<(), Trouble> {
        match (call, outcome) {
            (Call::Stop { .. } | Call::Repair { .. }, _) => self.0 = false,
            (Call::Recall { .. }, Outcome::Answer(answer)) => {
                self.0 &= answer.floor.tiles == before.tiles;
            }
            (_, Outcome::Round(answer)) => {
                let ways = |floor: &Floor| floor.tiles.map(|tile| (tile.distance, tile.next));
                if self.0 && ways(before) != ways(&answer.floor) {
                    return turns("an arrow turns on a settled floor".into());
                }
                *rounds += u64::from(self.0);
                let distances = |floor: &Floor| floor.tiles.map(|tile| tile.distance);
                self.0 = distances(before) == distances(&answer.floor);
                if self.0 {
                    return all_nearest(&answer.floor);
                }
            }
            _ => {}
        }
        Ok(())
    }
}

fn turns(text: String) -> Result<(), Trouble> {
    Err(Trouble::promise("arrows", text))
}

/// Each arrow faces some nearest neighbour.
fn all_nearest(floor: &Floor) -> Result<(), Trouble> {
    for spot in Grid::of(&floor.settings).spots() {
        let arrow = usize::from(floor.tiles[spot.tile].next);
        if arrow != 0 && !nearest(floor, spot)[arrow - 1] {
            return turns(format!("tile {} faces no nearest neighbour", spot.tile));
        }
    }
    Ok(())
}

/// A call of a list about ties: rounds, and stops and repairs beside them.
pub fn tie_call(rng: &mut Rng, floor: &Floor) -> Call {
    let stopped = standing(floor);
    match rng.below(10) {
        0 => match ahead_of_ties(floor) {
            tiles if tiles.is_empty() => Call::Round,
            tiles => Call::Stop {
                tile: rng.pick(&tiles),
            },
        },
        1 | 2 if !stopped.is_empty() => Call::Repair {
            tile: rng.pick(&stopped),
        },
        3 => makers::call(rng, floor),
        _ => Call::Round,
    }
}

fn standing(floor: &Floor) -> Vec<u32> {
    let tiles = floor.settings.tile_count() as u32;
    (0..tiles)
        .filter(|tile| floor.tiles[*tile as usize].running == 0)
        .collect()
}

/// The tiles but the hoppers that an arrow faces where another would do.
fn ahead_of_ties(floor: &Floor) -> Vec<u32> {
    let grid = Grid::of(&floor.settings);
    let ahead = |spot: Spot| {
        let near = nearest(floor, spot).iter().filter(|near| **near).count();
        let side = Side::from_code(floor.tiles[spot.tile].next)?;
        let there = grid.neighbour(spot, side).filter(|_| near > 1)?;
        (!floor.settings.is_hopper(there)).then_some(there as u32)
    };
    grid.spots().filter_map(ahead).collect()
}
