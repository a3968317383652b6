//! One run of a floor of 8 x 8 tiles: a source, rounds, failures, and what
//! arrived at the hopper.

use ceromby::{Canister, Floor, Refusal, Settings};

/// Columns and rows, as in document 000.
const SIDE: u8 = 8;
/// U: it is 1 in document 000, so that a millimetre is a thousandth.
const WIDTH: u16 = 1_000;
/// The source in document 000: column 1, row 0.
const START: (u8, u8) = (1, 0);

/// How the source places a canister. It tries before each round.
#[derive(Clone, Copy, PartialEq, Eq, Debug)]
pub(crate) enum Source {
    /// One booking without a place.
    Anywhere,
    /// A canister at b = 0 for each a = 0, d, 2d and so on up to U - l.
    Row,
    /// One canister at b = 0 in the middle lane, a = (U - l) div 2.
    Lane,
}

impl Source {
    pub(crate) fn name(self) -> &'static str {
        match self {
            Source::Anywhere => "anywhere",
            Source::Row => "row",
            Source::Lane => "lane",
        }
    }

    /// What is refused for want of room, or because the tile is stopped, waits.
    fn book(self, floor: &mut Floor, tile: u32) -> Result<(), Refusal> {
        let settings = *floor.settings();
        let span = settings.width - settings.length;
        let spacing = settings.length + settings.gap;
        match self {
            Source::Anywhere => {
                let number = floor.counters().last + 1;
                waits(floor.book_anywhere(tile, number).map(|_| ()))
            }
            Source::Row => (0..=span)
                .step_by(spacing.into())
                .try_for_each(|a| book_at(floor, tile, a)),
            Source::Lane => book_at(floor, tile, span / 2),
        }
    }
}

fn book_at(floor: &mut Floor, tile: u32, a: u16) -> Result<(), Refusal> {
    let number = floor.counters().last + 1;
    waits(floor.book(tile, Canister::new(number, a, 0)))
}

fn waits(answer: Result<(), Refusal>) -> Result<(), Refusal> {
    match answer {
        Err(Refusal::NoPlace | Refusal::TooClose | Refusal::Stopped) => Ok(()),
        other => other,
    }
}

/// The tiles from the source to the hopper, each beside the one before.
#[derive(Clone, PartialEq, Eq, Debug)]
pub(crate) struct Way {
    tiles: Vec<u8>,
    pub(crate) turns: usize,
}

impl Way {
    /// A way of so many tiles from the source northward that turns on each of
    /// the first tiles after it, east and north by turns; then straight on.
    pub(crate) fn new(length: usize, turns: usize) -> Way {
        let (mut column, mut row) = START;
        let mut tiles = vec![column * SIDE + row];
        for step in 0..length - 1 {
            match step.min(turns) % 2 {
                0 => row += 1,
                _ => column += 1,
            }
            tiles.push(column * SIDE + row);
        }
        Way { tiles, turns }
    }

    pub(crate) fn length(&self) -> usize {
        self.tiles.len()
    }

    fn start(&self) -> u8 {
        self.tiles[0]
    }

    fn hopper(&self) -> u8 {
        self.tiles[self.tiles.len() - 1]
    }
}

/// How often tiles fail and recover, in thousandths for each tile and round.
#[derive(Clone, Copy, PartialEq, Eq, Debug)]
pub(crate) struct Failures {
    pub(crate) fail: u32,
    pub(crate) recover: u32,
    pub(crate) seed: u64,
}

/// What is run.
#[derive(Clone, PartialEq, Eq, Debug)]
pub(crate) struct Trial {
    /// l.
    pub(crate) length: u16,
    /// r.
    pub(crate) gap: u16,
    /// v.
    pub(crate) travel: u16,
    pub(crate) way: Way,
    /// Whether all tiles beside the way are stopped from the beginning.
    pub(crate) alone: bool,
    pub(crate) source: Source,
    pub(crate) failures: Option<Failures>,
    pub(crate) rounds: u32,
}

/// What came of it.
#[derive(Clone, Copy, PartialEq, Eq, Debug, Default)]
pub(crate) struct Outcome {
    /// Canisters that arrived.
    pub(crate) delivered: u32,
    /// Rounds in which some arrived, the first and the last of them.
    pub(crate) arrivals: u32,
    first: u32,
    last: u32,
    /// Accepted stops and repairs after the beginning.
    pub(crate) stops: u32,
    pub(crate) repairs: u32,
}

impl Outcome {
    /// Canisters in a round with an arrival, on average.
    pub(crate) fn together(&self) -> f64 {
        f64::from(self.delivered) / f64::from(self.arrivals.max(1))
    }

    /// Rounds from one arrival to the next, on average.
    pub(crate) fn apart(&self) -> f64 {
        let between = self.arrivals.saturating_sub(1).max(1);
        f64::from(self.last - self.first) / f64::from(between)
    }

    fn note(&mut self, round: u32, count: u32) {
        if count == 0 {
            return;
        }
        if self.arrivals == 0 {
            self.first = round;
        }
        self.last = round;
        self.arrivals += 1;
        self.delivered += count;
    }
}

impl Trial {
    /// As in document 000's Figure 7: eight tiles northward, a booking without a
    /// place, no failures.
    pub(crate) fn new(length: u16, gap: u16, travel: u16, rounds: u32) -> Trial {
        Trial {
            length,
            gap,
            travel,
            way: Way::new(SIDE.into(), 0),
            alone: false,
            source: Source::Anywhere,
            failures: None,
            rounds,
        }
    }

    pub(crate) fn settings(&self) -> Settings {
        Settings {
            columns: SIDE,
            rows: SIDE,
            hoppers: ceromby::tile(self.way.hopper()),
            sources: ceromby::tile(self.way.start()),
            width: WIDTH,
            length: self.length,
            gap: self.gap,
            travel: self.travel,
        }
    }

    /// How many canisters fit side by side: (U - l) div d + 1.
    pub(crate) fn across(&self) -> u16 {
        (WIDTH - self.length) / (self.length + self.gap) + 1
    }

    /// M, the moves from one border of a tile over the other.
    pub(crate) fn moves(&self) -> u16 {
        (WIDTH - self.length) / self.travel + 1
    }

    /// The moves after which a canister that came in leaves the gap free behind
    /// it, or has left the tile.
    pub(crate) fn clearing(&self) -> u16 {
        let spacing = self.length + self.gap;
        spacing.div_ceil(self.travel).min(self.moves())
    }

    pub(crate) fn run(&self) -> Result<Outcome, Refusal> {
        let mut floor = Floor::fresh(self.settings())?;
        let mut outcome = Outcome::default();
        let mut chance = self.failures.map(|failures| Chance::new(failures.seed));
        self.stop_all_beside(&mut floor)?;
        for round in 1..=self.rounds {
            if let Some((failures, chance)) = self.failures.zip(chance.as_mut()) {
                self.strike(&mut floor, failures, chance, &mut outcome)?;
            }
            self.source.book(&mut floor, self.way.start().into())?;
            let report = floor.round()?;
            outcome.note(round, report.delivered().count() as u32);
        }
        Ok(outcome)
    }

    fn stop_all_beside(&self, floor: &mut Floor) -> Result<(), Refusal> {
        let beside = |tile: &u8| self.alone && !self.way.tiles.contains(tile);
        (0..SIDE * SIDE)
            .filter(beside)
            .try_for_each(|tile| floor.stop(tile.into()))
    }

    /// Each tile but the hopper, by rising number, fails or recovers or does not,
    /// by one draw.
    fn strike(
        &self,
        floor: &mut Floor,
        failures: Failures,
        chance: &mut Chance,
        outcome: &mut Outcome,
    ) -> Result<(), Refusal> {
        let runs = floor.tiles().map(|(_, tile)| tile.is_running());
        let runs: Vec<bool> = runs.collect();
        let hopper = usize::from(self.way.hopper());
        for (tile, running) in runs.into_iter().enumerate().filter(|(at, _)| *at != hopper) {
            let draw = chance.thousandths();
            if running && draw < failures.fail {
                floor.stop(tile as u32)?;
                outcome.stops += 1;
            } else if !running && draw < failures.recover {
                floor.repair(tile as u32)?;
                outcome.repairs += 1;
            }
        }
        Ok(())
    }
}

/// Repeatable draws: splitmix64.
struct Chance {
    state: u64,
}

impl Chance {
    fn new(seed: u64) -> Chance {
        Chance { state: seed }
    }

    fn draw(&mut self) -> u64 {
        self.state = self.state.wrapping_add(0x9e37_79b9_7f4a_7c15);
        let mixed = (self.state ^ (self.state >> 30)).wrapping_mul(0xbf58_476d_1ce4_e5b9);
        let mixed = (mixed ^ (mixed >> 27)).wrapping_mul(0x94d0_49bb_1331_11eb);
        mixed ^ (mixed >> 31)
    }

    /// 0 to 999, by the draw's upper half.
    fn thousandths(&mut self) -> u32 {
        (((self.draw() >> 32) * 1_000) >> 32) as u32
    }
}

#[cfg(test)]
mod tests {
    use super::*;

    #[test]
    fn ways_turn_as_often_as_they_say() {
        for length in 2..=8 {
            for turns in 0..=length - 2 {
                let way = Way::new(length, turns);
                assert_eq!(way.length(), length);
                let steps: Vec<_> = way.tiles.windows(2).map(|two| two[1] - two[0]).collect();
                assert!(steps.iter().all(|step| [1, SIDE].contains(step)));
                let turned = steps.windows(2).filter(|two| two[0] != two[1]).count();
                assert_eq!(turned, turns);
            }
        }
    }

    /// Column 1 from row 0 to row 7, as in document 000.
    #[test]
    fn the_straight_way_is_the_papers() {
        assert_eq!(Way::new(8, 0).tiles, [8, 9, 10, 11, 12, 13, 14, 15]);
    }

    /// Known values for this seed.
    #[test]
    fn draws_are_those_of_splitmix64() {
        let mut chance = Chance::new(1_234_567);
        let draws = [chance.draw(), chance.draw(), chance.draw()];
        let known = [
            6_457_827_717_110_365_317,
            3_203_168_211_198_807_973,
            9_817_491_932_198_370_423,
        ];
        assert_eq!(draws, known);
    }

    /// Document 000 has v = l in Figure 9 and allows any small l in Figure 8.
    #[test]
    fn nearest_accepted_measures() {
        let accepted = |length, travel| {
            let trial = Trial::new(length, 50, travel, 0);
            Floor::fresh(trial.settings()).map(|_| ())
        };
        assert_eq!(accepted(200, 200), Err(Refusal::Measure));
        assert_eq!(accepted(200, 199), Ok(()));
        assert_eq!(accepted(160, 50), Err(Refusal::Measure));
        assert_eq!(accepted(161, 50), Ok(()));
    }

    /// What explains Figure 7 at v 200. With r 350 there is room for the next
    /// canister while the fill tile still moves, so that no two stay abreast.
    #[test]
    fn rows_form_on_a_fill_tile_that_waits() {
        let shape = |gap| {
            let trial = Trial::new(250, gap, 200, 2_500);
            let outcome = trial.run().expect("accepted");
            let rounded = |value: f64| value.round() as u16;
            (rounded(outcome.together()), rounded(outcome.apart()))
        };
        assert_eq!(shape(350), (1, 7));
        assert_eq!(shape(400), (2, 8));
        assert_eq!(shape(550), (1, 8));
    }

    /// In a row and in a lane arrivals are M moves and a clearing apart.
    #[test]
    fn arrivals_are_moves_and_clearing_apart() {
        for (gap, travel) in [(0, 50), (100, 100), (200, 150), (350, 200), (600, 249)] {
            for (source, together) in [(Source::Row, true), (Source::Lane, false)] {
                let trial = Trial {
                    source,
                    ..Trial::new(250, gap, travel, 2_500)
                };
                let outcome = trial.run().expect("accepted");
                let row = if together { trial.across() } else { 1 };
                let apart = trial.moves() + trial.clearing();
                assert!((outcome.together() - f64::from(row)).abs() < 0.01);
                assert!((outcome.apart() - f64::from(apart)).abs() < 0.01);
            }
        }
    }
}
