//! How long a side of a tile waits for its grant.

use oracle::{Floor, Grid, RoundAnswer, Side, Spot, MAX_TILES};

use crate::call::{Call, Outcome, Trouble};

/// A side that wants, since its last grant or since it began to want.
#[derive(Clone, Copy, Default)]
struct Wait {
    rounds: u64,
    /// The sides granted meanwhile, by bits.
    granted: u8,
    /// The most sides that wanted in one of its rounds so far.
    wanting: usize,
}

/// The longest waits with a number of sides wanting.
#[derive(Clone, Copy, Default)]
struct Longest {
    /// How often as many others had been granted as wanted beside it.
    full: u64,
    grants: u64,
    rounds: u64,
}

#[derive(Default)]
pub struct Counts {
    /// For one to four sides wanting.
    longest: [Longest; 4],
    /// Tiles stopped before a round, none of whose sides wanted in it.
    stopped: u64,
}

impl Counts {
    fn note(&mut self, wait: &Wait, granted: bool) {
        let longest = &mut self.longest[wait.wanting - 1];
        let grants = wait.granted.count_ones() as usize;
        longest.full += u64::from(granted && grants + 1 == wait.wanting);
        longest.grants = longest.grants.max(grants as u64);
        longest.rounds = longest.rounds.max(wait.rounds);
    }

    pub fn add(&mut self, more: &Counts) {
        self.stopped += more.stopped;
        for (longest, other) in self.longest.iter_mut().zip(&more.longest) {
            longest.full += other.full;
            longest.grants = longest.grants.max(other.grants);
            longest.rounds = longest.rounds.max(other.rounds);
        }
    }

    /// Lines of counts, each with its name.
    pub fn lines(&self) -> Vec<(String, Vec<(&'static str, u64)>)> {
        let line = |(at, longest): (usize, &Longest)| {
            let mut cells = vec![("most rounds", longest.rounds)];
            if at > 0 {
                cells.push(("all others granted", longest.full));
                cells.push(("most grants to others", longest.grants));
            }
            (format!("waits, {} sides wanting:", at + 1), cells)
        };
        let mut lines: Vec<_> = self.longest.iter().enumerate().map(line).collect();
        let stopped = vec![("no side wanted", self.stopped)];
        lines.push(("tiles stopped before a round:".into(), stopped));
        lines
    }
}

/// The waits of every tile's sides.
pub struct Waits {
    sides: [[Wait; 4]; MAX_TILES],
    /// Tiles stopped since the last round.
    stopped: [bool; MAX_TILES],
}

impl Waits {
    pub fn new() -> Waits {
        Waits {
            sides: [[Wait::default(); 4]; MAX_TILES],
            stopped: [false; MAX_TILES],
        }
    }

    /// Notes an accepted call.
    pub fn note(
        &mut self,
        before: &Floor,
        call: &Call,
        outcome: &Outcome,
        counts: &mut Counts,
    ) -> Result<(), Trouble> {
        match (call, outcome) {
            (Call::Stop { tile }, _) => self.stopped[*tile as usize] = true,
            (Call::Recall { .. }, Outcome::Answer(answer)) => {
                let tiles = before.tiles.iter().zip(&answer.floor.tiles);
                for (stopped, (before, after)) in self.stopped.iter_mut().zip(tiles) {
                    *stopped |= before.running > after.running;
                }
            }
            (_, Outcome::Round(answer)) => {
                let grid = Grid::of(&before.settings);
                for spot in grid.spots() {
                    let wants = wants(before, &answer.floor, spot);
                    self.note_stop(wants, spot, counts)?;
                    self.note_tile(wants, spot, answer, counts)?;
                }
            }
            _ => {}
        }
        Ok(())
    }

    /// After a stop of the tile, repaired or not, no side wants in the next round.
    fn note_stop(
        &mut self,
        wants: [bool; 4],
        spot: Spot,
        counts: &mut Counts,
    ) -> Result<(), Trouble> {
        if self.stopped[spot.tile] {
            self.stopped[spot.tile] = false;
            counts.stopped += 1;
            if wants.contains(&true) {
                let text = format!("a side wants into tile {} after its stop", spot.tile);
                return Err(Trouble::promise("a stop ends the wait", text));
            }
        }
        Ok(())
    }

    /// No other side is granted twice while one waits.
    fn note_tile(
        &mut self,
        wants: [bool; 4],
        spot: Spot,
        answer: &RoundAnswer,
        counts: &mut Counts,
    ) -> Result<(), Trouble> {
        let grant = answer.report.grants[spot.tile];
        let wanting = wants.iter().filter(|wants| **wants).count();
        for (side, wait) in Side::ALL.into_iter().zip(&mut self.sides[spot.tile]) {
            if !wants[usize::from(side.code()) - 1] || grant == side.code() {
                *wait = Wait::default();
                continue;
            }
            if grant != 0 && wait.granted >> grant & 1 == 1 {
                let text = format!(
                    "tile {} grants side {grant} twice while side {} waits",
                    spot.tile,
                    side.code()
                );
                return Err(Trouble::promise("nobody waits twice", text));
            }
            wait.rounds += 1;
            wait.granted |= u8::from(grant != 0) << grant;
            wait.wanting = wait.wanting.max(wanting);
            counts.note(wait, grant != 0);
        }
        Ok(())
    }
}

/// The sides of a running tile where the neighbour has canisters and its new
/// arrow, which is the one after the round, faces here.
fn wants(before: &Floor, after: &Floor, spot: Spot) -> [bool; 4] {
    let grid = Grid::of(&before.settings);
    let running = before.tiles[spot.tile].running == 1;
    Side::ALL.map(|side| {
        let there = grid.neighbour(spot, side).filter(|_| running);
        there.is_some_and(|there| {
            before.tiles[there].count > 0 && after.tiles[there].next == side.opposite().code()
        })
    })
}
