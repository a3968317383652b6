//! Document 000's Figures 7, 8 and 9 on the compiled library: throughput, the
//! canisters that arrive divided by the rounds, for many measures, ways and
//! rates of failure.
//!
//! Lengths are millimetres: U = 1,000 is 1 in document 000. The source tile is
//! at column 1, row 0, and books before each round by one of these rules:
//! `anywhere`, one booking without a place; `row`, a canister at b = 0 for each
//! a = 0, d, 2d and so on; `lane`, one canister at b = 0 in the middle. What is
//! refused for want of room is tried again before the next round.
//!
//! Columns of figure-7.csv that others don't have: `across`, how many canisters
//! fit side by side; `moves`, M; `clearing`, the moves of a canister until there
//! is a gap behind it; `together`, canisters in a round with an arrival, and
//! `apart`, rounds from one such round to the next, both on average.

use std::fmt;
use std::fs;
use std::io;
use std::path::{Path, PathBuf};

use ceromby::Refusal;

use crate::markup::grouped;
use crate::plot::{self, Axis, Chart, Panel};
use crate::trial::{Failures, Outcome, Source, Trial, Way};

/// What is measured.
#[derive(Clone, PartialEq, Eq, Debug)]
pub struct Options {
    /// K; none for document 000's, 2,500 in Figures 7 and 8 and 20,000 in
    /// Figure 9 (300 if small).
    pub rounds: Option<u32>,
    /// A few points of each figure instead of all.
    pub small: bool,
    /// Of the failures in Figure 9.
    pub seed: u64,
}

/// All points with document 000's rounds, seed 1.
impl Default for Options {
    fn default() -> Options {
        Options {
            rounds: None,
            small: false,
            seed: 1,
        }
    }
}

/// Why figures weren't made.
#[derive(Debug)]
pub enum Error {
    /// This couldn't be written.
    Write(PathBuf, io::Error),
    /// The library refused a call that it should accept.
    Refused(Refusal),
}

impl fmt::Display for Error {
    fn fmt(&self, f: &mut fmt::Formatter) -> fmt::Result {
        match self {
            Error::Write(path, error) => write!(f, "{}: {error}", path.display()),
            Error::Refused(refusal) => write!(f, "refused {}: {refusal}", refusal.number()),
        }
    }
}

impl std::error::Error for Error {}

impl From<Refusal> for Error {
    fn from(refusal: Refusal) -> Error {
        Error::Refused(refusal)
    }
}

/// Makes the three figures in a directory, which is made if it isn't there:
/// figure-7, figure-8 and figure-9, each as .csv and .svg. Gives the files.
/// After each run `progress` is called with how many are done, of how many.
pub fn run(
    dir: &Path,
    options: &Options,
    progress: &mut dyn FnMut(usize, usize),
) -> Result<Vec<PathBuf>, Error> {
    fs::create_dir_all(dir).map_err(|error| Error::Write(dir.into(), error))?;
    let figures = [seven(options), eight(options), nine(options)];
    let of = figures.iter().map(Figure::trials).sum();
    let mut done = 0;
    let mut each = || {
        done += 1;
        progress(done, of);
    };
    let mut files = Vec::new();
    for figure in figures {
        let runs = figure.run(&mut each)?;
        files.push(store(dir, figure.name, "csv", &figure.table(&runs))?);
        files.push(store(dir, figure.name, "svg", &figure.drawn(&runs))?);
    }
    Ok(files)
}

fn store(dir: &Path, name: &str, ending: &str, text: &str) -> Result<PathBuf, Error> {
    let path = dir.join(format!("{name}.{ending}"));
    match fs::write(&path, text) {
        Ok(()) => Ok(path),
        Err(error) => Err(Error::Write(path, error)),
    }
}

/// A trial with what came of it.
struct Run {
    trial: Trial,
    outcome: Outcome,
}

impl Run {
    fn throughput(&self) -> f64 {
        f64::from(self.outcome.delivered) / f64::from(self.trial.rounds.max(1))
    }
}

/// How a figure is made.
struct Figure {
    name: &'static str,
    title: &'static str,
    panels: Vec<Sweep>,
    /// The name of a trial's curve.
    curve: fn(&Trial) -> String,
    /// Heads of the table's columns, and a trial's cells.
    header: &'static str,
    row: fn(&Run) -> String,
    caption: Vec<String>,
}

/// The trials of a panel.
struct Sweep {
    title: String,
    across: Axis,
    /// A trial's place on that axis.
    at: fn(&Trial) -> f64,
    trials: Vec<Trial>,
}

impl Figure {
    fn trials(&self) -> usize {
        self.panels.iter().map(|panel| panel.trials.len()).sum()
    }

    /// All trials, panel by panel.
    fn run(&self, each: &mut dyn FnMut()) -> Result<Vec<Vec<Run>>, Refusal> {
        let mut one = |trial: &Trial| {
            let outcome = trial.run()?;
            each();
            let trial = trial.clone();
            Ok(Run { trial, outcome })
        };
        let mut all = |panel: &Sweep| panel.trials.iter().map(&mut one).collect();
        self.panels.iter().map(&mut all).collect()
    }

    fn table(&self, runs: &[Vec<Run>]) -> String {
        let rows = runs.iter().flatten().map(self.row);
        let lines = std::iter::once(self.header.to_string()).chain(rows);
        lines.map(|line| line + "\n").collect()
    }

    fn drawn(self, runs: &[Vec<Run>]) -> String {
        let mut curves: Vec<String> = Vec::new();
        for name in runs.iter().flatten().map(|run| (self.curve)(&run.trial)) {
            if !curves.contains(&name) {
                curves.push(name);
            }
        }
        let points = |name: &String, sweep: &Sweep, runs: &[Run]| {
            let on = runs.iter().filter(|run| (self.curve)(&run.trial) == *name);
            on.map(|run| ((sweep.at)(&run.trial), run.throughput()))
                .collect()
        };
        let panel = |(sweep, runs): (Sweep, &Vec<Run>)| Panel {
            curves: curves
                .iter()
                .map(|name| points(name, &sweep, runs))
                .collect(),
            up: Axis::throughput(runs.iter().map(Run::throughput)),
            title: sweep.title,
            across: sweep.across,
        };
        let panels = self.panels.into_iter().zip(runs).map(panel).collect();
        plot::svg(&Chart {
            title: self.title.into(),
            panels,
            curves,
            caption: self.caption,
        })
    }
}

impl Options {
    /// K of a figure.
    fn rounds(&self, paper: u32) -> u32 {
        self.rounds.unwrap_or(if self.small { 300 } else { paper })
    }

    /// All values, or a few.
    fn pick<T: Clone>(&self, all: &[T], few: &[T]) -> Vec<T> {
        if self.small { few } else { all }.to_vec()
    }
}

/// All pairs, those with the same first one after the other.
fn pairs<A: Copy, B: Copy>(first: &[A], second: &[B]) -> Vec<(A, B)> {
    let with = |&one: &A| second.iter().map(move |&other| (one, other));
    first.iter().flat_map(with).collect()
}

fn name_of_travel(trial: &Trial) -> String {
    format!("v {} mm", trial.travel)
}

/// Throughput by r for each v and source, l 250.
fn seven(options: &Options) -> Figure {
    let rounds = options.rounds(2_500);
    let travels = options.pick(&[50, 100, 150, 200, 249], &[100, 200]);
    let gaps: Vec<u16> = (0..=700).step_by(25).collect();
    let gaps = options.pick(&gaps, &[0, 350, 400, 550]);
    let panel = |(source, title): (Source, &str)| {
        let trial = |(travel, gap)| Trial {
            source,
            ..Trial::new(250, gap, travel, rounds)
        };
        Sweep {
            title: title.into(),
            across: Axis {
                label: "least gap r (mm)",
                low: 0.0,
                step: 100.0,
                steps: 7,
                decimals: 0,
            },
            at: |trial| trial.gap.into(),
            trials: pairs(&travels, &gaps).into_iter().map(trial).collect(),
        }
    };
    let sources = [
        (Source::Anywhere, "anywhere: booking without a place"),
        (Source::Row, "row: all that fit side by side at b = 0"),
        (Source::Lane, "lane: one at b = 0 in the middle"),
    ];
    Figure {
        name: "figure-7",
        title: "Throughput by least gap r and travel v",
        panels: sources.into_iter().map(panel).collect(),
        curve: name_of_travel,
        header: "source,v,r,across,moves,clearing,rounds,delivered,throughput,together,apart",
        row: row_of_seven,
        caption: vec![
            format!(
                "8 × 8 tiles, U 1,000 mm, l 250 mm; K = {} rounds from a fresh floor.",
                grouped(rounds)
            ),
            "Fill tile at column 1, row 0; hopper at column 1, row 7. \
             The fill tile books before each round, as each panel says."
                .into(),
        ],
    }
}

fn row_of_seven(run: &Run) -> String {
    let Run { trial, outcome } = run;
    format!(
        "{},{},{},{},{},{},{},{},{:.4},{:.2},{:.2}",
        trial.source.name(),
        trial.travel,
        trial.gap,
        trial.across(),
        trial.moves(),
        trial.clearing(),
        trial.rounds,
        outcome.delivered,
        run.throughput(),
        outcome.together(),
        outcome.apart(),
    )
}

/// Throughput by turns for each l and v, and by the tiles of a straight way.
fn eight(options: &Options) -> Figure {
    let rounds = options.rounds(2_500);
    let travels = options.pick(&[50, 100, 150], &[150]);
    let lengths = options.pick(&[161, 200, 250], &[161]);
    let turns = options.pick(&[0, 1, 2, 3, 4, 5, 6], &[0, 1, 3]);
    let tiles = options.pick(&[2, 3, 4, 5, 6, 7, 8], &[2, 8]);
    let along = |length, travel, way, source| Trial {
        way,
        alone: true,
        source,
        ..Trial::new(length, 50, travel, rounds)
    };
    let turning = |length: u16| Sweep {
        title: format!("turns, anywhere, l {length} mm"),
        across: count_axis("turns of a way of 8 tiles", 0),
        at: |trial| trial.way.turns as f64,
        trials: pairs(&travels, &turns)
            .into_iter()
            .map(|(travel, turns)| along(length, travel, Way::new(8, turns), Source::Anywhere))
            .collect(),
    };
    let straight = |source: Source| Sweep {
        title: format!("length, {}, l 250 mm", source.name()),
        across: count_axis("tiles of a straight way", 2),
        at: |trial| trial.way.length() as f64,
        trials: pairs(&travels, &tiles)
            .into_iter()
            .map(|(travel, tiles)| along(250, travel, Way::new(tiles, 0), source))
            .collect(),
    };
    let mut panels: Vec<_> = lengths.into_iter().map(turning).collect();
    panels.extend([Source::Anywhere, Source::Lane].map(straight));
    Figure {
        name: "figure-8",
        title: "Throughput by the turns and the length of the way",
        panels,
        curve: name_of_travel,
        header: "source,l,v,tiles,turns,rounds,delivered,throughput",
        row: row_of_eight,
        caption: vec![
            format!(
                "8 × 8 tiles, U 1,000 mm, r 50 mm; K = {} rounds. \
                 All tiles beside the way are stopped.",
                grouped(rounds)
            ),
            "The way begins northward at column 1, row 0, and turns on the tiles next to that; \
             the hopper is its last tile."
                .into(),
            "Sources as in Figure 7: anywhere, a booking without a place before each round; \
             lane, one at b = 0 in the middle."
                .into(),
        ],
    }
}

/// Six steps of one.
fn count_axis(label: &'static str, low: u8) -> Axis {
    Axis {
        label,
        low: low.into(),
        step: 1.0,
        steps: 6,
        decimals: 0,
    }
}

fn row_of_eight(run: &Run) -> String {
    let Run { trial, outcome } = run;
    format!(
        "{},{},{},{},{},{},{},{:.4}",
        trial.source.name(),
        trial.length,
        trial.travel,
        trial.way.length(),
        trial.way.turns,
        trial.rounds,
        outcome.delivered,
        run.throughput(),
    )
}

/// Throughput by the rate of failure for each rate of recovery.
fn nine(options: &Options) -> Figure {
    let rounds = options.rounds(20_000);
    let seed = options.seed;
    let recoveries = options.pick(&[50, 100, 150, 200], &[50, 200]);
    let failures = options.pick(&[10, 20, 30, 40, 50], &[10, 50]);
    let trial = |(recover, fail)| Trial {
        failures: Some(Failures {
            fail,
            recover,
            seed,
        }),
        ..Trial::new(200, 50, 199, rounds)
    };
    let panel = Sweep {
        title: "anywhere: booking without a place".into(),
        across: Axis {
            label: "p_f, failures for each tile and round",
            low: 0.0,
            step: 0.01,
            steps: 5,
            decimals: 2,
        },
        at: |trial| rates(trial).0,
        trials: pairs(&recoveries, &failures)
            .into_iter()
            .map(trial)
            .collect(),
    };
    Figure {
        name: "figure-9",
        title: "Throughput by failures p_f and recoveries p_r",
        panels: vec![panel],
        curve: |trial| format!("p_r {:.2}", rates(trial).1),
        header: "p_f,p_r,seed,rounds,stops,repairs,delivered,throughput",
        row: row_of_nine,
        caption: vec![
            "8 × 8 tiles, U 1,000 mm, l 200 mm, r 50 mm, v 199 mm (v = l is refused).".into(),
            format!(
                "K = {} rounds. Fill tile at column 1, row 0; hopper at column 1, row 7.",
                grouped(rounds)
            ),
            format!(
                "Before each round every tile but the hopper draws once: splitmix64, seed {seed}."
            ),
        ],
    }
}

/// p_f and p_r.
fn rates(trial: &Trial) -> (f64, f64) {
    let part = |thousandths: u32| f64::from(thousandths) / 1_000.0;
    trial.failures.map_or((0.0, 0.0), |failures| {
        (part(failures.fail), part(failures.recover))
    })
}

fn row_of_nine(run: &Run) -> String {
    let Run { trial, outcome } = run;
    let (fail, recover) = rates(trial);
    format!(
        "{fail:.2},{recover:.2},{},{},{},{},{},{:.4}",
        trial.failures.map_or(0, |failures| failures.seed),
        trial.rounds,
        outcome.stops,
        outcome.repairs,
        outcome.delivered,
        run.throughput(),
    )
}
