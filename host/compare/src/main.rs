//! Long random runs of the library against the second implementation.

mod arrows;
mod barges;
mod blank;
mod book_lists;
mod bounds;
mod call;
mod exchange;
#[cfg(feature = "faults")]
mod faults;
mod first;
mod hoppers;
mod images;
mod layout_damage;
mod layout_images;
mod layouts;
mod makers;
mod page;
mod places;
mod plans;
mod program;
mod promise;
mod reasons;
mod runs;
mod show;
mod shrink;
mod stored;
mod tally;
mod throughput;
mod waits;

use std::process::ExitCode;
use std::time::Instant;

use oracle::random::{self, Rng};

use runs::{single, Failure};
use stored::Part;
use tally::Tally;

const USAGE: &str = "compare [--seed N] [--calls N] [--images N] [--faults | --fault NAME | --page]
compare --write-counts";

#[derive(Clone, Copy, PartialEq)]
struct Extent {
    seed: u64,
    calls: u64,
    images: u64,
}

/// The extent of the gate's runs, whose counts are stored.
const STANDARD: Extent = Extent {
    seed: 1,
    calls: 1_500_000,
    images: 150_000,
};

/// A failure with the kind of run that met it.
struct Found {
    kind: &'static str,
    failure: Box<Failure>,
}

/// The four kinds, then the runs for single requests, which have random
/// numbers and counts of their own.
fn run(extent: Extent, tally: &mut Tally) -> Result<(), Found> {
    cycles(extent, tally)?;
    let mut further = Tally::new();
    let made = requests(extent, &mut further);
    tally.add(further);
    made
}

/// One of each for five hundred calls.
fn requests(extent: Extent, tally: &mut Tally) -> Result<(), Found> {
    for at in 0..extent.calls / 500 {
        let mut rng = Rng::new(Rng::new(!extent.seed ^ at << 20).draw());
        let found = |kind| move |failure| Found { kind, failure };
        single::exchange_once(&mut rng, tally).map_err(found("calls in either order"))?;
        single::exchange_in_list(&mut rng, tally).map_err(found("a list in either order"))?;
        single::crowd(&mut rng, tally).map_err(found("a crowded floor"))?;
        single::ties(&mut rng, tally).map_err(found("a list about ties"))?;
        single::several(&mut rng, tally).map_err(found("several hoppers"))?;
        single::layouts(&mut rng, tally).map_err(found("a list about layouts"))?;
        single::blank(&mut rng, tally).map_err(found("a blank controller"))?;
        single::places(&mut rng, tally).map_err(found("bookings"))?;
        single::book_lists(&mut rng, tally).map_err(found("lists of bookings"))?;
        if at % 10 == 0 {
            let mut own = Rng::new(Rng::new(!extent.seed ^ at << 20 ^ 12).draw());
            single::whole_plan(&mut own, tally).map_err(found("a whole plan"))?;
            let mut own = Rng::new(Rng::new(!extent.seed ^ at << 20 ^ 15).draw());
            single::spent_bound(&mut own, tally).map_err(found("rounds up to the bound"))?;
        }
        if at % 20 == 0 {
            let mut own = Rng::new(Rng::new(!extent.seed ^ at << 20 ^ 13).draw());
            single::barge_list(&mut own, tally).map_err(found("a list on a barge"))?;
        }
        if at % 100 == 0 {
            single::throughput(&mut rng, tally).map_err(found("the throughput of a floor"))?;
        }
    }
    Ok(())
}

/// Cycles of all four kinds until both numbers are reached.
fn cycles(extent: Extent, tally: &mut Tally) -> Result<(), Found> {
    for cycle in 0.. {
        let more_calls = tally.calls < extent.calls;
        let more_images = tally.damaged_images < extent.images;
        if !more_calls && !more_images {
            break;
        }
        let mut rng = Rng::new(Rng::new(extent.seed ^ cycle << 20).draw());
        let found = |kind| move |failure| Found { kind, failure };
        if more_calls {
            for _ in 0..12 {
                runs::arbitrary(&mut rng, tally).map_err(found("an arbitrary floor"))?;
            }
            for _ in 0..10 {
                runs::damaged(&mut rng, tally).map_err(found("a damaged floor"))?;
            }
            runs::list(&mut rng, tally).map_err(found("a list"))?;
            let mut own = Rng::new(Rng::new(extent.seed ^ cycle << 20 ^ 2).draw());
            single::feeds(&mut own, tally).map_err(found("a throughput record"))?;
            let mut own = Rng::new(Rng::new(extent.seed ^ cycle << 20 ^ 7).draw());
            single::pages(&mut own, tally).map_err(found("a page"))?;
            let mut own = Rng::new(Rng::new(extent.seed ^ cycle << 20 ^ 15).draw());
            single::bounds(&mut own, tally).map_err(found("a bound"))?;
            let mut own = Rng::new(Rng::new(extent.seed ^ cycle << 20 ^ 12).draw());
            single::plans(&mut own, tally).map_err(found("a plan"))?;
            let mut own = Rng::new(Rng::new(extent.seed ^ cycle << 20 ^ 13).draw());
            single::barges(&mut own, tally).map_err(found("a barge"))?;
        }
        if more_images {
            for _ in 0..8 {
                let floor = random::floor(&mut rng);
                for _ in 0..8 {
                    runs::image(&mut rng, &floor, tally).map_err(found("an image"))?;
                }
            }
        }
    }
    Ok(())
}

/// The standard run. Gives the counts if it passed.
fn ordinary(extent: Extent) -> Option<Vec<String>> {
    let start = Instant::now();
    let mut tally = Tally::new();
    if let Err(found) = run(extent, &mut tally) {
        let trouble = &found.failure.trouble;
        println!(
            "trouble with {} in {} after {} calls and {} images, seed {}",
            trouble.at, found.kind, tally.calls, tally.damaged_images, extent.seed
        );
        println!("{}", trouble.text);
        let (case, trouble) = shrink::shrink(&found.failure);
        println!(
            "smallest case found:\n{}{}",
            show::case(&case),
            trouble.text
        );
        return None;
    }
    let lines = tally.lines();
    lines.print();
    println!(
        "{}; seed {}, {:.1} s",
        lines.verdict(),
        extent.seed,
        start.elapsed().as_secs_f64()
    );
    lines.missing.is_empty().then_some(lines.all)
}

#[cfg(feature = "faults")]
fn with_faults(extent: Extent, name: Option<&str>) -> Option<Vec<String>> {
    faults::run(extent, name)
}

/// Without the feature the oracle has no faults.
#[cfg(not(feature = "faults"))]
fn with_faults(_: Extent, _: Option<&str>) -> Option<Vec<String>> {
    None
}

/// What is to be run.
enum Mode {
    Ordinary,
    /// All faults, or the one named.
    Faults(Option<String>),
    /// The program `page`.
    Page,
    /// All of these, to store what they count.
    WriteCounts,
}

/// What the command's words ask for. None if they can't be read.
fn asked() -> Option<(Extent, Mode)> {
    let mut extent = STANDARD;
    let mut mode = Mode::Ordinary;
    let mut words = std::env::args().skip(1);
    while let Some(word) = words.next() {
        let field = match word.as_str() {
            "--seed" => &mut extent.seed,
            "--calls" => &mut extent.calls,
            "--images" => &mut extent.images,
            "--faults" => {
                mode = Mode::Faults(None);
                continue;
            }
            "--fault" => {
                mode = Mode::Faults(Some(words.next()?));
                continue;
            }
            "--page" => {
                mode = Mode::Page;
                continue;
            }
            "--write-counts" => {
                mode = Mode::WriteCounts;
                continue;
            }
            _ => return None,
        };
        *field = words.next()?.parse().ok()?;
    }
    match mode {
        Mode::WriteCounts if extent != STANDARD => None,
        _ => Some((extent, mode)),
    }
}

/// What the mode needs and isn't there.
fn lacking(mode: &Mode) -> Option<String> {
    let faults = matches!(mode, Mode::Faults(_) | Mode::WriteCounts);
    let page = matches!(mode, Mode::Page | Mode::WriteCounts);
    if faults && !cfg!(feature = "faults") {
        return Some("this needs a build with --features faults".into());
    }
    if page && std::env::var_os(program::NAME).is_none() {
        let name = program::NAME;
        return Some(format!("this needs the page program's path in {name}"));
    }
    None
}

/// Makes one of the runs. Gives the counts if it passed.
fn made(part: Part, extent: Extent) -> Option<Vec<String>> {
    match part {
        Part::Ordinary => ordinary(extent),
        Part::Faults => with_faults(extent, None),
        Part::Page => program::run(extent, std::env::var_os(program::NAME)?.into()),
    }
}

/// Whether a run passes and, if it is a standard one, counts what is stored.
fn passes(part: Part, extent: Extent) -> bool {
    let Some(counted) = made(part, extent) else {
        return false;
    };
    if extent != STANDARD {
        return true;
    }
    match stored::check(part, &counted) {
        Ok(()) => {
            println!("the counts are those stored");
            true
        }
        Err(text) => {
            println!("{}", text.trim_end());
            false
        }
    }
}

/// Makes all runs and stores what they counted. Whether all passed.
fn write_counts() -> bool {
    let mut parts = Vec::new();
    for part in [Part::Ordinary, Part::Faults, Part::Page] {
        let Some(counted) = made(part, STANDARD) else {
            return false;
        };
        parts.push((part, counted));
    }
    match stored::write(&parts) {
        Ok(()) => true,
        Err(error) => {
            println!("the counts can't be stored: {error}");
            false
        }
    }
}

fn main() -> ExitCode {
    let Some((extent, mode)) = asked() else {
        eprintln!("{USAGE}");
        return ExitCode::from(2);
    };
    if let Some(text) = lacking(&mode) {
        eprintln!("{text}");
        return ExitCode::from(2);
    }
    call::hush_the_oracle();
    let passed = match mode {
        Mode::Ordinary => passes(Part::Ordinary, extent),
        Mode::Faults(None) => passes(Part::Faults, extent),
        Mode::Faults(name) => with_faults(extent, name.as_deref()).is_some(),
        Mode::Page => passes(Part::Page, extent),
        Mode::WriteCounts => write_counts(),
    };
    match passed {
        true => ExitCode::SUCCESS,
        false => ExitCode::FAILURE,
    }
}
