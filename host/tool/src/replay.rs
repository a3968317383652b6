//! A list of calls as a page in which it is played: one HTML file that needs
//! nothing else.
//!
//! The calls are made here, by the library, and so are those of every branch
//! that was asked for; the page has the differences from step to step and puts
//! them on its drawing.

use std::fmt::Write;

use ceromby::{Canister, Floor, Reason, Settings};
use ceromby_session::json::Json;
use ceromby_session::Call;

use crate::draw::{self, Frame};
use crate::markup::escaped;
use crate::options::Usage;

mod branch;
mod difference;
pub mod list;
mod options;
mod record;

use branch::Branch;
use list::Line;
pub use options::REPLAY;
use record::{Change, Position, Recorder, Step, MOST_STEPS};

const PAGE: &str = include_str!("replay/page.html");
const STYLE: &str = include_str!("replay/style.css");
const SCRIPT: &str = include_str!("replay/script.js");

/// The script's SHA-256 in base 64, by which a browser knows that it may run it
/// and nothing else; a test says what it is after a change.
const SCRIPT_HASH: &str = "sha256-bL2yNOqOWd0PKIRSGvuW0ej70SNYjQ8lRwb6ZwheXUQ=";

/// A call that a list doesn't have, and after which of its steps it is made.
#[derive(Clone, PartialEq, Debug)]
pub struct WhatIf {
    /// As it was typed.
    pub text: String,
    /// The call.
    pub call: Call,
    /// How many steps of the list are made before it.
    pub at: usize,
}

/// A list, all its steps, and its branches.
pub struct Replay {
    name: String,
    /// The command that made it, without `>` and the page's name.
    command: String,
    list: Vec<Line>,
    steps: Vec<Step>,
    /// In the order asked for.
    branches: Vec<Branch>,
}

impl Replay {
    /// Makes the calls of a list, and those of each branch. `name` is the list's,
    /// for the title; `command` makes this page. An error where the list has too
    /// many steps, or too few for a branch.
    pub fn record(
        name: &str,
        command: &str,
        list: Vec<Line>,
        what_ifs: &[WhatIf],
    ) -> Result<Replay, Usage> {
        let mut recorder = Recorder::default();
        let mut forks = branch::Forks::new(what_ifs);
        forks.take(&recorder, Position::default());
        recorder.run(&list, Position::default(), |recorder, position| {
            forks.take(recorder, position);
        });
        let steps = recorder.steps();
        few(steps, "the list")?;
        if let Some(late) = what_ifs.iter().find(|what_if| what_if.at > steps.len()) {
            let (at, steps) = (late.at, steps.len());
            return Err(Usage(format!("--at {at}: the list has {steps} steps")));
        }
        let branches = forks.grow(&list, &recorder);
        for branch in &branches {
            few(&branch.steps, &format!("what if {}", branch.what_if.text))?;
        }
        Ok(Replay {
            name: name.to_owned(),
            command: command.to_owned(),
            steps: steps.to_vec(),
            list,
            branches,
        })
    }

    /// The page.
    pub fn html(&self) -> String {
        let scenes = self.scenes();
        let mut page = String::new();
        for part in PAGE.split("{{") {
            let Some((name, rest)) = part.split_once("}}") else {
                page += part;
                continue;
            };
            match name {
                "name" => page += &escaped(&self.name),
                "hash" => page += SCRIPT_HASH,
                "style" => page = page + draw::STYLE + STYLE,
                "definitions" => page += draw::DEFINITIONS,
                "legend" => page += &legend(),
                "parts" => page += &parts(),
                "scenes" => page.extend(scenes.iter().enumerate().map(scene)),
                "data" => page += &self.data(&scenes),
                _ => page += SCRIPT,
            }
            page += rest;
        }
        page
    }

    /// The settings of all floors, each once.
    fn scenes(&self) -> Vec<Settings> {
        let mut scenes = Vec::new();
        let branches = self.branches.iter().flat_map(|branch| &branch.steps);
        for step in self.steps.iter().chain(branches) {
            let Change::Places(places) = &step.change else {
                continue;
            };
            for view in places.iter().filter_map(|(_, _, after)| after.as_ref()) {
                if !scenes.contains(&view.settings) {
                    scenes.push(view.settings);
                }
            }
        }
        scenes
    }

    /// All that the page knows, as JSON without `<`.
    fn data(&self, scenes: &[Settings]) -> String {
        let mut out = String::from("{");
        let texts = [("name", &self.name), ("command", &self.command)];
        for (name, text) in texts {
            let _ = write!(out, "\"{name}\":{},", Json::from(text.as_str()));
        }
        let _ = write!(
            out,
            "\"side\":{},\"reasons\":{},\"scenes\":[",
            draw::SIDE,
            reasons()
        );
        separated(&mut out, scenes, write_scene);
        out += "],\n\"lines\":[";
        separated(&mut out, &self.list, |out, line| {
            let _ = write!(out, "[{},{}]", line.number, Json::from(line.text.as_str()));
        });
        out += "],\n\"steps\":[";
        write_steps(&mut out, &self.steps, scenes);
        out += "],\n\"branches\":[";
        separated(&mut out, &self.branches, |out, branch| {
            let _ = write!(
                out,
                "{{\"at\":{},\"text\":{},\"says\":{},\"pairs\":{},\"steps\":[",
                branch.what_if.at,
                Json::from(branch.what_if.text.as_str()),
                branch
                    .says
                    .iter()
                    .map(|says| Json::from(says.as_str()))
                    .collect::<Json>(),
                Json::numbers(
                    branch
                        .pairs
                        .iter()
                        .flat_map(|(main, own)| [*main as u64, *own as u64])
                ),
            );
            write_steps(out, &branch.steps, scenes);
            *out += "]}";
        });
        out += "]}";
        // within texts alone, where JSON may have it so too
        out.replace('<', "\\u003c")
    }
}

/// An error where there are too many steps for a page.
fn few(steps: &[Step], of: &str) -> Result<(), Usage> {
    match steps.len() {
        0..MOST_STEPS => Ok(()),
        _ => Err(Usage(format!("{of} has {MOST_STEPS} steps or more"))),
    }
}

fn write_steps(out: &mut String, steps: &[Step], scenes: &[Settings]) {
    separated(out, steps, |out, step| {
        *out += "\n";
        step.write(out, scenes);
    });
}

/// Values with commas between them.
fn separated<T>(out: &mut String, values: &[T], mut write: impl FnMut(&mut String, &T)) {
    for (at, value) in values.iter().enumerate() {
        if at > 0 {
            out.push(',');
        }
        write(out, value);
    }
}

/// The words of each reason by its number; `#` is for the missing millimetres.
fn reasons() -> Json {
    let reasons = [
        Reason::Stopped,
        Reason::Empty,
        Reason::NoArrow,
        Reason::Turn,
        Reason::NoGap { missing: 0 },
        Reason::Moved,
    ];
    let words = reasons.map(|reason| Json::Text(reason.to_string().replace('0', "#")));
    std::iter::once(Json::Null).chain(words).collect()
}

/// Settings, and each tile's corner in the drawing.
fn write_scene(out: &mut String, settings: &Settings) {
    let mut fields = ceromby_session::json::settings_fields(settings);
    let frame = Frame::of(settings);
    let tiles = u32::from(settings.columns) * u32::from(settings.rows);
    let corners = (0..tiles).flat_map(|tile| <[u32; 2]>::from(frame.tile(tile)));
    fields.push(("corners", Json::numbers(corners)));
    let _ = write!(out, "{}", Json::Object(fields));
}

/// The drawing of an empty floor, and a canister for each length of a number,
/// whose label the script changes.
fn scene((number, settings): (usize, &Settings)) -> String {
    // the settings are those of a floor: never refused
    let Ok(floor) = Floor::fresh(*settings) else {
        return String::new();
    };
    let frame = Frame::of(settings);
    let (width, height) = frame.size();
    let numbers = (0..10).map(|zeros| 10_u32.pow(zeros));
    let samples: String = numbers
        .map(|number| draw::one_canister(&frame, 0, &Canister::new(number, 0, 0)))
        .collect();
    // the border of a fill tile and the hopper's is wider than the tile
    let border = 4;
    format!(
        "<template id=\"scene-{number}\"><svg class=\"ceromby\" role=\"img\" viewBox=\"-{border} -{border} {} {}\">\n\
         {}{}<g class=\"samples\">{samples}</g></svg></template>\n",
        width + 2 * border,
        height + 2 * border,
        draw::tiles(&floor),
        draw::canisters(&floor),
    )
}

/// Tiles with all parts that a tile can have: arrow, distance, turn and hatching.
fn parts() -> String {
    let settings = Settings {
        columns: 3,
        rows: 1,
        hoppers: ceromby::tile(2),
        sources: ceromby::tile(0),
        width: 100,
        length: 30,
        gap: 10,
        travel: 20,
    };
    let drawn = || {
        let mut floor = Floor::fresh(settings)?;
        floor.book_anywhere(0, 1)?;
        floor.round()?;
        floor.round()?;
        let running = draw::tiles(&floor);
        floor.stop(1)?;
        Ok::<_, ceromby::Refusal>(running + &draw::tiles(&floor))
    };
    let tiles = drawn().unwrap_or_default();
    format!("<template id=\"parts\"><svg>{tiles}</svg></template>\n")
}

/// The legend, as wide as the narrowest screen has it.
fn legend() -> String {
    let (width, height) = (300, 8 * 24);
    format!(
        "<svg class=\"ceromby legend\" role=\"img\" aria-label=\"Legend\" viewBox=\"0 0 {width} {height}\">{}</svg>",
        draw::legend(width),
    )
}
