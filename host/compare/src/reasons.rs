//! Why tiles stood, judged from the floors before and after a round.

use oracle::{reason, Canister, Floor, Grid, RoundAnswer, Settings, Side, Spot};

use crate::call::Trouble;

const SIDES: [&str; 4] = ["west", "south", "north", "east"];
const ALONE: [&str; 3] = ["stopped", "empty", "no arrow"];
const AHEAD: [&str; 3] = ["another's turn", "no gap", "moved"];
const LACKS: [&str; 3] = ["1", "d", "several lack"];

#[derive(Default)]
pub struct Counts {
    /// Reasons 1 to 3.
    alone: [u64; 3],
    /// Reasons 4 to 6 by the arrow's side.
    ahead: [[u64; 4]; 3],
    /// Reason 5 with one millimetre missing, with all of d, and with several
    /// canisters that lack differently.
    lacks: [u64; 3],
}

impl Counts {
    pub fn note(&mut self, before: &Floor, answer: &RoundAnswer) {
        for spot in Grid::of(&before.settings).spots() {
            let reason = usize::from(answer.report.reasons[spot.tile]);
            let Some((side, there)) = ahead(answer, spot) else {
                self.alone[reason - 1] += 1;
                continue;
            };
            match reason {
                1..=3 => self.alone[reason - 1] += 1,
                _ => self.ahead[reason - 4][usize::from(side.code()) - 1] += 1,
            }
            if reason == usize::from(reason::NO_GAP) {
                self.note_lacks(before, side, there);
            }
        }
    }

    fn note_lacks(&mut self, before: &Floor, side: Side, there: usize) {
        let settings = &before.settings;
        let mut lacks = lacks(settings, before.members(there), side);
        lacks.sort_unstable();
        lacks.dedup();
        lacks.retain(|lack| *lack > 0);
        let worst = lacks.last().copied().unwrap_or(0);
        self.lacks[0] += u64::from(worst == 1);
        self.lacks[1] += u64::from(worst == spacing(settings));
        self.lacks[2] += u64::from(lacks.len() > 1);
    }

    pub fn add(&mut self, more: &Counts) {
        let add = |counts: &mut [u64], more: &[u64]| {
            for (count, more) in counts.iter_mut().zip(more) {
                *count += more;
            }
        };
        add(&mut self.alone, &more.alone);
        add(&mut self.lacks, &more.lacks);
        for (counts, more) in self.ahead.iter_mut().zip(&more.ahead) {
            add(counts, more);
        }
    }

    /// Lines of counts, each with its name.
    pub fn lines(&self) -> Vec<(String, Vec<(&'static str, u64)>)> {
        let line = |name: &str, names: &[&'static str], counts: &[u64]| {
            let cells = names.iter().copied().zip(counts.iter().copied());
            (name.to_string(), cells.collect())
        };
        let mut lines = vec![line("reasons:", &ALONE, &self.alone)];
        for (name, counts) in AHEAD.iter().zip(&self.ahead) {
            lines.push(line(&format!("{name}, arrow to the"), &SIDES, counts));
        }
        lines.push(line("no gap, missing:", &LACKS, &self.lacks));
        lines
    }
}

/// Where a tile's arrow leads after the round.
fn ahead(answer: &RoundAnswer, spot: Spot) -> Option<(Side, usize)> {
    let floor = &answer.floor;
    let side = Side::from_code(floor.tiles[spot.tile].next)?;
    let there = Grid::of(&floor.settings).neighbour(spot, side)?;
    Some((side, there))
}

fn spacing(settings: &Settings) -> i32 {
    i32::from(settings.length) + i32::from(settings.gap)
}

/// What each canister lacks to a gap for one that comes along an arrow; not
/// above 0 if it is out of the way.
fn lacks(settings: &Settings, members: &[Canister], arrow: Side) -> Vec<i32> {
    let far = i32::from(settings.width) - i32::from(settings.length);
    let free = |canister: &Canister| match arrow {
        Side::East => i32::from(canister.a),
        Side::North => i32::from(canister.b),
        Side::South => far - i32::from(canister.b),
        Side::West => far - i32::from(canister.a),
    };
    let lack = |canister| spacing(settings) - free(canister);
    members.iter().map(lack).collect()
}

/// Holds every tile's reason and its missing millimetres to what the floors
/// and grants show.
pub fn check(before: &Floor, answer: &RoundAnswer) -> Result<(), Trouble> {
    let report = &answer.report;
    let broken = |text| Err(Trouble::promise("reasons", text));
    for spot in Grid::of(&before.settings).spots() {
        let tile = spot.tile;
        let told = (report.reasons[tile], report.missing[tile].into());
        let due = due(before, answer, spot);
        if told != due {
            return broken(format!("tile {tile}: {told:?} reported, not {due:?}"));
        }
        let moved = told.0 == reason::MOVED;
        if shifted(before, answer, spot) != Some(moved) {
            return broken(format!("tile {tile}: reason {} against its move", told.0));
        }
        if report.missing[tile] >= before.settings.width {
            return broken(format!("tile {tile}: {} missing", told.1));
        }
    }
    let tiles = before.settings.tile_count();
    let unused = report.reasons[tiles..].iter().all(|reason| *reason == 0);
    match unused && report.missing[tiles..].iter().all(|missing| *missing == 0) {
        true => Ok(()),
        false => broken("a reason where no tile is".into()),
    }
}

/// The reason and the missing millimetres. What was granted is the turn ahead
/// before it passed on; without a grant the turn stays.
fn due(before: &Floor, answer: &RoundAnswer, spot: Spot) -> (u8, i32) {
    let begun = &before.tiles[spot.tile];
    if begun.running == 0 {
        return (reason::STOPPED, 0);
    }
    if begun.count == 0 {
        return (reason::EMPTY, 0);
    }
    let Some((side, there)) = ahead(answer, spot) else {
        return (reason::NO_ARROW, 0);
    };
    let turn = match answer.report.grants[there] {
        0 => answer.floor.tiles[there].token,
        grant => grant,
    };
    if turn != side.opposite().code() {
        return (reason::OTHER_TURN, 0);
    }
    let lacks = lacks(&before.settings, before.members(there), side);
    match lacks.into_iter().max() {
        Some(worst) if worst > 0 => (reason::NO_GAP, worst),
        _ => (reason::MOVED, 0),
    }
}

/// Whether all canisters of a tile shifted by v along its arrow; false if all
/// stayed, nothing if neither.
fn shifted(before: &Floor, answer: &RoundAnswer, spot: Spot) -> Option<bool> {
    let members = before.members(spot.tile);
    let here = answer.floor.members(spot.tile);
    if members.iter().all(|canister| here.contains(canister)) {
        return Some(false);
    }
    let (side, there) = ahead(answer, spot)?;
    let went = |canister: &Canister| {
        let (place, crossed) = beyond(&before.settings, canister, side);
        match before.settings.rank(there) {
            _ if !crossed => here.contains(&place),
            Some(rank) => answer.report.at(rank).contains(&place.number),
            None => answer.floor.members(there).contains(&place),
        }
    };
    members.iter().all(went).then_some(true)
}

/// A canister shifted by v, and whether it crossed.
fn beyond(settings: &Settings, canister: &Canister, side: Side) -> (Canister, bool) {
    let far = i32::from(settings.width) - i32::from(settings.length);
    let mut place = *canister;
    let (along, step) = match side {
        Side::West => (&mut place.a, -1),
        Side::South => (&mut place.b, -1),
        Side::North => (&mut place.b, 1),
        Side::East => (&mut place.a, 1),
    };
    let moved = i32::from(*along) + step * i32::from(settings.travel);
    let crossed = !(0..=far).contains(&moved);
    *along = match (crossed, step) {
        (false, _) => moved as u16,
        (true, 1) => 0,
        (true, _) => far as u16,
    };
    (place, crossed)
}
