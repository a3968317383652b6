//! Questions about a floor, a plan and the barge.

use ceromby::{tiles, Floor, Reason, Refusal, Settings, FLOORS};
use ceromby_session::json::{self, Json};
use ceromby_session::{Call, Denial, Operation, Session};

use crate::backend::{Backend, Delivery, Failure};
use crate::line::Question;
use crate::{paths, say, why};

/// What a question gave: lines, and the same as JSON.
#[derive(Clone, PartialEq, Debug)]
pub struct Shown {
    /// Lines of text.
    pub lines: Vec<String>,
    /// The same for programs.
    pub gave: Json,
}

impl Shown {
    fn line(line: String, gave: Vec<(&'static str, Json)>) -> Shown {
        Shown {
            lines: vec![line],
            gave: Json::Object(gave),
        }
    }
}

/// The floor at hand, or the barge's of that number.
pub fn operation(session: &Session, floor: Option<u32>) -> Result<&Operation, Denial> {
    match floor {
        None => session.hand().ok_or(Denial::NoFloor),
        Some(floor) if floor as usize >= FLOORS => Err(Refusal::NoFloor.into()),
        Some(floor) => session.aboard(floor).ok_or(Denial::NotOnBarge(floor)),
    }
}

/// Answers a question about the floor at hand or one of the barge.
pub fn answer(session: &Session, floor: Option<u32>, question: Question) -> Result<Shown, Denial> {
    let operation = operation(session, floor)?;
    // the beginning of its lines
    let on = &say::on(floor);
    let floor = &operation.floor;
    match question {
        Question::Show => Ok(show(on, operation)),
        Question::Map => Ok(map(on, floor)),
        Question::Read(tile) => read(on, floor, tile),
        Question::Why => Ok(stood(on, operation)),
        Question::Settings => Ok(settings(on, floor.settings())),
        Question::Bound => bound(on, floor),
        Question::Throughput => Ok(throughput(on, operation)),
        Question::Layouts => Ok(layouts(on, floor)),
    }
}

fn page(floor: &Floor) -> Vec<String> {
    floor.to_string().lines().map(str::to_owned).collect()
}

fn counters(operation: &Operation) -> Vec<(&'static str, Json)> {
    let counters = operation.floor.counters();
    let hoppers = tiles(operation.floor.settings().hoppers);
    let delivered = hoppers.zip(counters.delivered).map(|(hopper, delivered)| {
        Json::Object(vec![
            ("hopper", hopper.into()),
            ("delivered", delivered.into()),
        ])
    });
    vec![
        ("last", counters.last.into()),
        ("booked", counters.booked.into()),
        ("delivered", delivered.collect()),
        ("round", operation.rounds.into()),
    ]
}

fn texts(lines: &[String]) -> Json {
    lines.iter().map(|line| Json::from(line.as_str())).collect()
}

fn show(on: &str, operation: &Operation) -> Shown {
    let page = page(&operation.floor);
    let mut gave = counters(operation);
    gave.push(("page", texts(&page)));
    let mut lines = vec![format!("{on}show: {}", say::counters(operation))];
    lines.extend(page);
    Shown {
        lines,
        gave: Json::Object(gave),
    }
}

/// The page, and beside it each tile's number with `f` for a fill tile and `H`
/// for a hopper.
fn map(on: &str, floor: &Floor) -> Shown {
    let settings = floor.settings();
    let rows = (0..settings.rows.into()).rev();
    let beside = page(floor).into_iter().zip(rows);
    let beside: Vec<String> = beside
        .map(|(line, row)| format!("{line}  {}", numbers(settings, row)))
        .collect();
    let gave = vec![("map", texts(&beside))];
    let legend = "tile numbers beside the page; f a fill tile, H a hopper";
    let mut lines = vec![format!("{on}map: {legend}")];
    lines.extend(beside);
    Shown {
        lines,
        gave: Json::Object(gave),
    }
}

/// The numbers of a row's tiles with their marks.
fn numbers(settings: &Settings, row: u32) -> String {
    let columns = 0..u32::from(settings.columns);
    let mut text = String::from("|");
    for column in columns {
        let number = column * u32::from(settings.rows) + row;
        let bit = paths::bit(number);
        let mark = if settings.hoppers & bit != 0 {
            'H'
        } else if settings.sources & bit != 0 {
            'f'
        } else {
            ' '
        };
        text += &format!("{number:>2}{mark}|");
    }
    text
}

fn read(on: &str, floor: &Floor, number: u32) -> Result<Shown, Denial> {
    let tile = floor.read(number)?;
    let line = format!("{on}read: {}", say::tile(number, &tile));
    let distance = tile.distance().map_or(Json::Null, Json::from);
    let side = |side| match say::side(side) {
        "-" => Json::Null,
        letter => Json::from(letter),
    };
    let canisters = tile.canisters().iter();
    let canisters = canisters.map(|each| Json::Object(json::canister_fields(each).into()));
    let gave = vec![
        ("tile", number.into()),
        ("running", Json::Bool(tile.is_running())),
        ("distance", distance),
        ("arrow", side(tile.arrow())),
        ("turn", side(tile.turn())),
        ("canisters", canisters.collect()),
    ];
    Ok(Shown::line(line, gave))
}

fn stood(on: &str, operation: &Operation) -> Shown {
    let Some(report) = &operation.report else {
        return Shown::line(
            format!("{on}why: no round yet"),
            vec![("round", Json::Null)],
        );
    };
    let round = operation.rounds;
    let mut lines = vec![format!("{on}why: in round {round}")];
    let mut gave = Vec::new();
    for (tile, reason) in report.reasons() {
        let Some(text) = say::reason(reason) else {
            continue;
        };
        lines.push(format!("      tile {tile} {text}"));
        gave.push(reason_object(tile, reason));
    }
    if gave.is_empty() {
        lines.push("      all tiles were empty".to_owned());
    }
    let gave = vec![("round", round.into()), ("tiles", Json::List(gave))];
    Shown {
        lines,
        gave: Json::Object(gave),
    }
}

fn reason_object(tile: u32, reason: Reason) -> Json {
    let word = match reason {
        Reason::Stopped => "stopped",
        Reason::Empty => "empty",
        Reason::NoArrow => "no arrow",
        Reason::Turn => "another's turn",
        Reason::NoGap { .. } => "no gap",
        Reason::Moved => "moved",
    };
    let mut fields = vec![("tile", Json::from(tile)), ("reason", word.into())];
    if let Reason::NoGap { missing } = reason {
        fields.push(("missing", missing.into()));
    }
    Json::Object(fields)
}

fn settings(on: &str, settings: &Settings) -> Shown {
    let Settings {
        width,
        length,
        gap,
        travel,
        sources,
        ..
    } = *settings;
    let fill = match sources.count_ones() {
        0 => "no fill tile".to_owned(),
        1 => format!("fill tile {}", say::set(sources)),
        _ => format!("fill tiles {}", say::set(sources)),
    };
    let call = Call::Fresh {
        settings: *settings,
        give_up: false,
    };
    let lines = vec![
        format!("{on}settings: {}, {fill}", say::made(settings)),
        format!("      U {width} mm, side of a tile; l {length} mm, side of a canister"),
        format!("      r {gap} mm, least gap; v {travel} mm, travel in a round"),
        format!("      made by {call}"),
    ];
    Shown {
        lines,
        gave: Json::Object(json::settings_fields(settings)),
    }
}

fn bound(on: &str, floor: &Floor) -> Result<Shown, Denial> {
    let bound = floor.bound()?;
    let connected = say::amount(bound.connected);
    let found = match (bound.connected, bound.unconnected) {
        (0, 0) => "the floor is empty".to_owned(),
        (0, left) => format!("nothing can be delivered, {} left", say::amount(left)),
        (_, 0) => format!("{connected} delivered within {} rounds, all", bound.rounds),
        (_, left) => format!(
            "{connected} delivered within {} rounds, {} left then",
            bound.rounds,
            say::amount(left)
        ),
    };
    let mut lines = vec![format!("{on}bound: {found}")];
    let left = left(floor);
    let stuck = left.iter().filter(|left| left.why != Stuck::OnTheWay);
    lines.extend(stuck.map(Left::line));
    let gave = vec![
        ("rounds", bound.rounds.into()),
        ("connected", bound.connected.into()),
        ("unconnected", bound.unconnected.into()),
    ];
    Ok(Shown {
        lines,
        gave: Json::Object(gave),
    })
}

/// Why canisters are on a tile.
#[derive(Clone, Copy, PartialEq, Eq, Debug)]
pub enum Stuck {
    /// The tile is stopped.
    Stopped,
    /// No running tiles lead to a hopper.
    NoPath,
    /// They will be delivered.
    OnTheWay,
}

impl Stuck {
    fn text(self) -> &'static str {
        match self {
            Stuck::Stopped => "the tile is stopped",
            Stuck::NoPath => "no live path to a hopper",
            Stuck::OnTheWay => "on the way",
        }
    }
}

/// The canisters of a tile, and why they are there.
#[derive(Clone, PartialEq, Eq, Debug)]
pub struct Left {
    tile: u32,
    numbers: Vec<u32>,
    why: Stuck,
}

impl Left {
    /// How many they are.
    pub fn canisters(&self) -> u64 {
        self.numbers.len() as u64
    }

    /// As a line of text.
    pub fn line(&self) -> String {
        let numbers = say::listed(&self.numbers);
        format!("      tile {}: {numbers}: {}", self.tile, self.why.text())
    }

    /// As JSON.
    pub fn object(&self) -> Json {
        Json::Object(vec![
            ("tile", self.tile.into()),
            ("numbers", Json::numbers(self.numbers.iter().copied())),
            ("reason", self.why.text().into()),
        ])
    }
}

/// The canisters on a floor, tile by tile.
pub fn left(floor: &Floor) -> Vec<Left> {
    let live = paths::live(floor);
    let held = floor.tiles().filter(|(_, on)| !on.canisters().is_empty());
    held.map(|(number, on)| Left {
        tile: number,
        numbers: on.canisters().iter().map(|each| each.number).collect(),
        why: if !on.is_running() {
            Stuck::Stopped
        } else if live & paths::bit(number) == 0 {
            Stuck::NoPath
        } else {
            Stuck::OnTheWay
        },
    })
    .collect()
}

fn throughput(on: &str, operation: &Operation) -> Shown {
    let several = say::several(operation.floor.settings());
    let mut lines = Vec::new();
    let mut gave = Vec::new();
    for (hopper, record) in operation.throughput() {
        let line = say::throughput(record, hopper, several);
        lines.push(format!("{on}{line}"));
        let rate = |rate: Option<f64>| rate.map_or(Json::Null, Json::Rate);
        gave.push(Json::Object(vec![
            ("hopper", hopper.into()),
            ("last", rate(record.last())),
            ("least", rate(record.least())),
            ("greatest", rate(record.greatest())),
            ("rounds", record.rounds().into()),
            ("deliveries", record.deliveries().into()),
        ]));
    }
    Shown {
        lines,
        gave: Json::Object(vec![("hoppers", Json::List(gave))]),
    }
}

fn layouts(on: &str, floor: &Floor) -> Shown {
    let each = floor.layouts();
    let lines = each.clone().map(|layout| {
        let (name, set) = (layout.letters(), say::set(layout.set));
        format!("{name} runs {set}")
    });
    let gave = each.map(|layout| {
        Json::Object(vec![
            ("name", Json::Text(layout.letters().to_string())),
            ("tiles", Json::numbers(tiles(layout.set))),
        ])
    });
    Shown {
        lines: begun(&format!("{on}layouts: "), lines.collect()),
        gave: Json::Object(vec![("layouts", gave.collect())]),
    }
}

/// Lines with the same beginning; one that says so where there are none.
fn begun(head: &str, lines: Vec<String>) -> Vec<String> {
    if lines.is_empty() {
        return vec![format!("{head}none")];
    }
    let lines = lines.into_iter();
    lines.map(|line| format!("{head}{line}")).collect()
}

/// Where a canister is: in words, and as JSON.
type Found = (String, Json);

/// Where a canister is on a floor.
fn place(floor: &Floor, number: u32) -> Option<Found> {
    let mut canisters = floor.canisters();
    let (tile, canister) = canisters.find(|(_, canister)| canister.number == number)?;
    let mut fields = vec![("tile", Json::from(tile))];
    fields.extend(json::canister_fields(&canister));
    let text = format!("{} on tile {tile}", say::canister(&canister));
    Some((text, Json::Object(fields)))
}

fn delivery(number: u32, delivery: &Delivery) -> Found {
    let Delivery { round, hopper, .. } = delivery;
    let text = format!("{number} delivered in round {round} at hopper {hopper}");
    let fields = vec![
        ("number", number.into()),
        ("delivered", (*round).into()),
        ("hopper", (*hopper).into()),
        ("on", delivery.floor.map_or(Json::Null, Json::from)),
    ];
    (text, Json::Object(fields))
}

/// `where`: on one floor of the barge, or on the floor at hand and all of them.
pub fn locate<B: Backend>(
    backend: &B,
    floor: Option<u32>,
    number: u32,
) -> Result<Result<Shown, Denial>, Failure> {
    let session = backend.session();
    let any = [None].into_iter().chain((0..FLOORS as u32).map(Some));
    let asked: Vec<_> = any.filter(|at| floor.is_none() || *at == floor).collect();
    let there = asked
        .into_iter()
        .filter_map(|at| Some((at, operation(session, at).ok()?)));
    let there: Vec<_> = there.collect();
    if there.is_empty() {
        return Ok(Err(operation(session, floor)
            .err()
            .unwrap_or(Denial::NoFloor)));
    }
    let mut found = Vec::new();
    for (at, operation) in &there {
        let known = match place(&operation.floor, number) {
            Some(known) => Some(known),
            None => backend
                .delivered(operation.run, number)?
                .map(|known| delivery(number, &known)),
        };
        found.extend(known.map(|(text, object)| (of_floor(text, *at, floor), object)));
    }
    let last = there.iter().map(|(_, there)| there.floor.counters().last);
    let last = last.max().unwrap_or_default();
    Ok(Ok(found_or_not(&say::on(floor), number, found, last)))
}

/// Names the floor of the barge where the question didn't.
fn of_floor(text: String, at: Option<u32>, asked: Option<u32>) -> String {
    match at {
        Some(floor) if asked.is_none() => format!("{text}, floor {floor} of the barge"),
        _ => text,
    }
}

fn found_or_not(on: &str, number: u32, found: Vec<Found>, last: u32) -> Shown {
    let (mut lines, gave): (Vec<String>, Vec<Json>) = found.into_iter().unzip();
    if lines.is_empty() {
        lines.push(if number > last {
            format!("{number} not on the floor: never booked, the last number is {last}")
        } else {
            format!("{number} not on the floor: delivered earlier or never booked")
        });
    }
    Shown {
        lines: begun(&format!("{on}where: "), lines),
        gave: Json::Object(vec![("found", Json::List(gave))]),
    }
}

/// Every entry of the plan.
pub fn entries(session: &Session) -> Shown {
    let entries = session.plan().entries();
    let gave = entries
        .iter()
        .map(|entry| Json::Object(json::entry_fields(entry)));
    Shown {
        lines: begun("entries: ", entries.iter().map(say::entry).collect()),
        gave: Json::Object(vec![("entries", gave.collect())]),
    }
}

/// The label that the plan offers.
pub fn offer(session: &Session) -> Result<Shown, Denial> {
    let label = session.plan().offer()?;
    let line = label.map_or("none".to_owned(), |label| format!("label {label}"));
    let line = format!("offer: {line}");
    let label = label.map_or(Json::Null, Json::from);
    Ok(Shown::line(line, vec![("label", label)]))
}

/// The barge: its allowance, its total, its floors.
pub fn barge(session: &Session) -> Shown {
    let (allowance, total) = (session.allowance(), why::total(session));
    let mut lines = vec![format!("allowance {allowance}, aboard {total}")];
    let mut floors = Vec::new();
    for floor in 0..FLOORS as u32 {
        let there = session.aboard(floor);
        let text = there.map_or("none".to_owned(), say::counters);
        lines.push(format!("floor {floor}: {text}"));
        floors.push(there.map_or(Json::Null, |there| Json::Object(counters(there))));
    }
    let gave = vec![
        ("allowance", allowance.into()),
        ("aboard", total.into()),
        ("floors", Json::List(floors)),
    ];
    Shown {
        lines: begun("barge: ", lines),
        gave: Json::Object(gave),
    }
}

/// What a session has, in a line.
pub fn summary(session: &Session) -> String {
    let hand = session
        .hand()
        .map_or("no floor at hand".to_owned(), |hand| {
            let made = say::made(hand.floor.settings());
            format!("{made}, {}", say::counters(hand))
        });
    let plan = match session.plan().entries().len() {
        0 => String::new(),
        entries => format!("; a plan of {}", say::counted(entries as u64, "label")),
    };
    let aboard = (0..FLOORS as u32).filter(|floor| session.aboard(*floor).is_some());
    let barge = match aboard.count() {
        0 => String::new(),
        floors => format!("; {} on the barge", say::counted(floors as u64, "floor")),
    };
    format!("{hand}{plan}{barge}")
}
