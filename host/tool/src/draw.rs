//! A floor as a drawing in SVG: north row on top, west column left.
//!
//! Each tile is a square of [`SIDE`] pixels below a strip with its number,
//! arrow, distance and turn. Canisters lie above the tiles in a view of their
//! own whose unit is the millimetre: they are to scale exactly, and a change of
//! its `transform` moves one.
//!
//! For pages that show a floor in motion the parts are functions, [`Frame`] says
//! where things are, and these names stay: `tile-5` is the id of a tile, with
//! the classes `running` or `stopped`, `hopper` and `fill`; `canister-12` that
//! of a canister. [`STYLE`] speaks of what is below an element of class
//! `ceromby`; [`DEFINITIONS`] is needed once in a page.

use ceromby::{Canister, Floor, Settings, Side, Tile};

use crate::markup::{escaped, grouped, hundredths, listed, DIGIT, FONT};

/// Side of a tile in the drawing, in pixels.
pub const SIDE: u32 = 160;
/// Height of the strip above a tile, in pixels.
pub const HEAD: u32 = 24;
/// Between tiles, in pixels.
pub const GAP: u32 = 8;

/// Around the drawing, in pixels.
const MARGIN: u32 = 16;
/// The least width that caption and legend need, in pixels.
const LEAST_WIDTH: u32 = 580;
/// Height of a line of the caption and of an entry of the legend, in pixels.
const LINE: u32 = 24;
/// Width of an entry of the legend, in pixels.
const ENTRY: u32 = 290;
/// Most digits of a canister's number on one line.
const ONE_LINE: usize = 5;

/// An arrow to the north around (0, 0), 12 by 16, and the hatching.
pub const DEFINITIONS: &str = "<defs>\
<path id=\"ceromby-arrow\" d=\"M0-8 6-1H2V8H-2V-1H-6Z\"/>\
<pattern id=\"ceromby-hatch\" width=\"10\" height=\"10\" patternUnits=\"userSpaceOnUse\" \
patternTransform=\"rotate(45)\"><path d=\"M0 0V10\" stroke=\"#d55e00\" stroke-width=\"6\"/></pattern>\
</defs>\n";

/// How the parts look, below an element of class `ceromby`. The colours are Okabe
/// and Ito's bluish green, orange, vermillion and, lighter below digits, sky blue.
pub const STYLE: &str = "\
.ceromby .paper{fill:#fff}
.ceromby .heading{font-size:20px;font-weight:bold}
.ceromby .bed{fill:#fff;stroke:#767676}
.ceromby .head{fill:#ececec}
.ceromby .flow{fill:#dcdcdc}
.ceromby .hatch{fill:url(#ceromby-hatch)}
.ceromby .number{font-size:17px;font-weight:bold}
.ceromby .distance{font-size:17px}
.ceromby .turn{text-anchor:end}
.ceromby .badge{font-weight:bold;text-anchor:middle}
.ceromby .edge{fill:none;stroke-width:4}
.ceromby .funnel{fill:#009e73}
.ceromby .hopper .bed{fill:#d5f0e7}
.ceromby .hopper .edge{stroke:#009e73}
.ceromby .hopper-mark{fill:#8fd6c0;stroke:#000}
.ceromby .fill .edge{stroke:#e69f00;stroke-dasharray:12 6}
.ceromby .fill-mark{fill:#e69f00;stroke:#000}
.ceromby .stopped .head{fill:#333}
.ceromby .stopped .number,.ceromby .stopped .turn{fill:#fff}
.ceromby .canister rect{fill:#9ad2f2;stroke:#000}
.ceromby .canister text{text-anchor:middle}
";

/// The whole drawing on one sheet of paper, in place of its left upper part.
const PRINTED: &str = "@media print{.ceromby{width:100%;height:100%}}\n";

/// The whole drawing: caption, tiles, canisters and legend. The same floor
/// gives the same bytes.
pub fn svg(floor: &Floor) -> String {
    let frame = Frame::of(floor.settings());
    let (floor_width, floor_height) = frame.size();
    let width = floor_width.max(LEAST_WIDTH) + 2 * MARGIN;
    let caption = caption(floor);
    let top = MARGIN + caption.len() as u32 * LINE + GAP;
    let foot = top + floor_height + MARGIN;
    let legend = legend(width - 2 * MARGIN);
    let height = foot + legend_height(width - 2 * MARGIN) + MARGIN;
    let lines: String = caption.iter().enumerate().map(caption_line).collect();
    format!(
        "<svg xmlns=\"http://www.w3.org/2000/svg\" class=\"ceromby\" role=\"img\" \
         aria-labelledby=\"ceromby-title ceromby-about\" \
         width=\"{width}\" height=\"{height}\" viewBox=\"0 0 {width} {height}\" \
         font-family=\"{FONT}\" font-size=\"14\">\n\
         <title id=\"ceromby-title\">{}</title>\n<desc id=\"ceromby-about\">{}</desc>\n\
         <style>\n{PRINTED}{STYLE}</style>\n{DEFINITIONS}\
         <rect class=\"paper\" width=\"{width}\" height=\"{height}\"/>\n{lines}\
         <g transform=\"translate({MARGIN} {top})\">\n{}{}</g>\n\
         <g transform=\"translate({MARGIN} {foot})\">\n{legend}</g>\n</svg>\n",
        escaped(&caption[0]),
        escaped(&about(floor)),
        tiles(floor),
        canisters(floor),
    )
}

/// Where the tiles and canisters of a floor are in its drawing.
#[derive(Clone, Copy, PartialEq, Eq, Debug)]
pub struct Frame {
    columns: u32,
    rows: u32,
    /// U.
    width: u64,
    /// l.
    length: u64,
}

impl Frame {
    /// That of the floors with these settings.
    pub fn of(settings: &Settings) -> Frame {
        Frame {
            columns: settings.columns.into(),
            rows: settings.rows.into(),
            width: settings.width.into(),
            length: settings.length.into(),
        }
    }

    /// Width and height of all tiles with their strips, in pixels.
    pub fn size(&self) -> (u32, u32) {
        let width = self.columns * (SIDE + GAP) - GAP;
        let height = self.rows * (HEAD + SIDE + GAP) - GAP;
        (width, height)
    }

    /// The north-west corner of a tile's square, in pixels from the floor's.
    pub fn tile(&self, tile: u32) -> (u32, u32) {
        let (column, row) = (tile / self.rows, tile % self.rows);
        let south = self.rows - 1 - row;
        (column * (SIDE + GAP), south * (HEAD + SIDE + GAP) + HEAD)
    }

    /// The north-west corner of a canister, in hundredths of a millimetre from
    /// the floor's.
    pub fn canister(&self, tile: u32, canister: &Canister) -> (u64, u64) {
        let (x, y) = self.tile(tile);
        let south = self.width - self.length - u64::from(canister.b);
        (
            self.measure(x) + 100 * u64::from(canister.a),
            self.measure(y) + 100 * south,
        )
    }

    /// Pixels in hundredths of a millimetre; exact for what this module draws,
    /// multiples of eight pixels.
    fn measure(&self, pixels: u32) -> u64 {
        u64::from(pixels) * 100 * self.width / u64::from(SIDE)
    }
}

/// The lines above the drawing: grid, measures, counters, layouts.
pub fn caption(floor: &Floor) -> Vec<String> {
    let settings = floor.settings();
    let counters = floor.counters();
    let Settings { columns, rows, .. } = settings;
    let delivered: u64 = counters.delivered.iter().map(|&each| u64::from(each)).sum();
    let mut lines = vec![
        format!("Floor of {columns} × {rows} tiles"),
        format!(
            "U {}, l {}, r {}, v {} mm",
            grouped(settings.width),
            grouped(settings.length),
            grouped(settings.gap),
            grouped(settings.travel),
        ),
        format!(
            "Aboard {}, booked {}, delivered {}",
            grouped(floor.aboard()),
            grouped(counters.booked),
            grouped(delivered),
        ),
        format!("Last number {}", grouped(counters.last)),
    ];
    lines.extend(delivered_lines(settings, &counters.delivered));
    lines.extend(layout_lines(floor));
    lines
}

/// With several hoppers what each took in, two on a line.
fn delivered_lines(settings: &Settings, delivered: &[u32]) -> Vec<String> {
    let hoppers: Vec<_> = ceromby::tiles(settings.hoppers).zip(delivered).collect();
    if hoppers.len() < 2 {
        return Vec::new();
    }
    let pair = |pair: &[(u32, &u32)]| {
        let words = pair
            .iter()
            .map(|(hopper, &count)| format!("at hopper {hopper}: {}", grouped(count)));
        format!("Delivered {}", words.collect::<Vec<_>>().join(", "))
    };
    hoppers.chunks(2).map(pair).collect()
}

/// The names of the layouts, four on a line.
fn layout_lines(floor: &Floor) -> Vec<String> {
    let names: Vec<_> = floor
        .layouts()
        .map(|layout| layout.letters().to_string())
        .collect();
    names
        .chunks(4)
        .map(|names| format!("Layouts: {}", names.join(", ")))
        .collect()
}

fn caption_line((at, line): (usize, &String)) -> String {
    let y = MARGIN + LINE * (at as u32 + 1) - GAP;
    let class = if at == 0 { " class=\"heading\"" } else { "" };
    format!(
        "<text{class} x=\"{MARGIN}\" y=\"{y}\">{}</text>\n",
        escaped(line)
    )
}

/// The drawing in a sentence, for who can't see it.
fn about(floor: &Floor) -> String {
    let settings = floor.settings();
    let stopped = floor.tiles().filter(|(_, tile)| !tile.is_running());
    format!(
        "{} canisters aboard. Hoppers: {}. Fill tiles: {}. Stopped tiles: {}. \
         Tiles are numbered by column from the west, in a column from the south.",
        grouped(floor.aboard()),
        listed(ceromby::tiles(settings.hoppers)),
        listed(ceromby::tiles(settings.sources)),
        listed(stopped.map(|(number, _)| number)),
    )
}

/// All tiles without their canisters, as a group of [`Frame::size`].
pub fn tiles(floor: &Floor) -> String {
    let settings = floor.settings();
    let frame = Frame::of(settings);
    let each: String = floor
        .tiles()
        .map(|(number, tile)| one_tile(&frame, settings, number, &tile))
        .collect();
    format!("<g class=\"tiles\">\n{each}</g>\n")
}

fn one_tile(frame: &Frame, settings: &Settings, number: u32, tile: &Tile) -> String {
    let (x, y) = frame.tile(number);
    let kind = Kind::of(settings, number);
    let run = if tile.is_running() {
        "running"
    } else {
        "stopped"
    };
    format!(
        "<g id=\"tile-{number}\" class=\"tile {run}{}\" transform=\"translate({x} {y})\">\
         <title>{}</title>{}{}</g>\n",
        kind.class(),
        tile_title(number, kind, tile),
        bed(kind, tile),
        strip(number, kind, tile),
    )
}

/// What a tile is for.
#[derive(Clone, Copy, PartialEq, Eq)]
enum Kind {
    Hopper,
    Fill,
    Plain,
}

impl Kind {
    fn of(settings: &Settings, number: u32) -> Kind {
        let holds = |set: u64| (set >> number) & 1 == 1;
        if holds(settings.hoppers) {
            Kind::Hopper
        } else if holds(settings.sources) {
            Kind::Fill
        } else {
            Kind::Plain
        }
    }

    fn class(self) -> &'static str {
        match self {
            Kind::Hopper => " hopper",
            Kind::Fill => " fill",
            Kind::Plain => "",
        }
    }

    fn word(self) -> &'static str {
        match self {
            Kind::Hopper => "hopper",
            Kind::Fill => "fill tile",
            Kind::Plain => "tile",
        }
    }
}

/// What a pointer held over the tile shows.
fn tile_title(number: u32, kind: Kind, tile: &Tile) -> String {
    let side = |side: Option<Side>| side.map_or("none".into(), |side| side.to_string());
    let state = match tile.is_running() {
        false => "stopped".into(),
        true => format!(
            "arrow {}, distance {}, turn {}",
            side(tile.arrow()),
            tile.distance().map_or("none".into(), |far| far.to_string()),
            side(tile.turn()),
        ),
    };
    let count = tile.canisters().len();
    format!("{} {number}: {state}, canisters: {count}", kind.word())
}

/// The square of a tile, with what lies below the canisters and around them.
fn bed(kind: Kind, tile: &Tile) -> String {
    let square = |class| rectangle(class, 0, 0, SIDE, SIDE);
    let mut out = String::new();
    if tile.is_running() {
        out += &square("bed");
    } else {
        out += &around("hatch", GAP / 2);
        out += &square("bed");
        out += &square("hatch");
    }
    if kind == Kind::Hopper {
        out += "<path class=\"funnel\" d=\"M40 44H120L92 90V122H68V90Z\"/>";
    }
    if let Some(side) = tile.arrow() {
        out += &arrow("flow", side, "translate(80 80)", " scale(6)");
    }
    out
}

/// A rectangle around tile and strip, so many pixels away from them, where no
/// canister can cover it.
fn around(class: &str, away: u32) -> String {
    let (x, y) = (-i64::from(away), -i64::from(HEAD + away));
    rectangle(class, x, y, SIDE + 2 * away, HEAD + SIDE + 2 * away)
}

fn rectangle(class: &str, x: i64, y: i64, width: u32, height: u32) -> String {
    format!("<rect class=\"{class}\" x=\"{x}\" y=\"{y}\" width=\"{width}\" height=\"{height}\"/>")
}

/// The strip above a tile: number, mark, arrow, distance and turn.
fn strip(number: u32, kind: Kind, tile: &Tile) -> String {
    let mut out = rectangle("head", 0, -i64::from(HEAD), SIDE, HEAD);
    if kind != Kind::Plain {
        out += &around("edge", GAP / 4);
    }
    out += &format!("<text class=\"number\" x=\"4\" y=\"-6\">{number}</text>");
    out += &badge(kind, 28, -21);
    if let Some(side) = tile.arrow() {
        out += &arrow("arrow", side, "translate(65 -12)", "");
    }
    if tile.is_running() {
        let far = tile.distance().map_or("–".into(), |far| far.to_string());
        out += &format!("<text class=\"distance\" x=\"77\" y=\"-6\">{far}</text>");
    }
    out + &turn(tile)
}

fn turn(tile: &Tile) -> String {
    let words = match (tile.is_running(), tile.turn()) {
        (false, _) => "stopped".into(),
        (true, None) => return String::new(),
        (true, Some(side)) => format!("turn {}", letter(side)),
    };
    format!("<text class=\"turn\" x=\"156\" y=\"-7\">{words}</text>")
}

/// The mark of a hopper or fill tile: a letter on a shape of its own.
fn badge(kind: Kind, x: i64, y: i64) -> String {
    let (class, round, letter) = match kind {
        Kind::Hopper => ("hopper-mark", 9, 'H'),
        Kind::Fill => ("fill-mark", 0, 'F'),
        Kind::Plain => return String::new(),
    };
    let (middle, base) = (x + 9, y + 14);
    format!(
        "<rect class=\"{class}\" x=\"{x}\" y=\"{y}\" width=\"18\" height=\"18\" rx=\"{round}\"/>\
         <text class=\"badge\" x=\"{middle}\" y=\"{base}\">{letter}</text>"
    )
}

fn arrow(class: &str, side: Side, at: &str, scale: &str) -> String {
    let angle = match side {
        Side::North => 0,
        Side::East => 90,
        Side::South => 180,
        Side::West => 270,
    };
    format!(
        "<use class=\"{class}\" href=\"#ceromby-arrow\" transform=\"{at} rotate({angle}){scale}\"/>"
    )
}

fn letter(side: Side) -> char {
    match side {
        Side::West => 'W',
        Side::South => 'S',
        Side::North => 'N',
        Side::East => 'E',
    }
}

/// All canisters of a floor, in a view of [`Frame::size`] whose unit is the
/// millimetre.
pub fn canisters(floor: &Floor) -> String {
    let frame = Frame::of(floor.settings());
    let (width, height) = frame.size();
    let each: String = floor
        .canisters()
        .map(|(tile, canister)| one_canister(&frame, tile, &canister))
        .collect();
    format!(
        "<svg class=\"canisters\" width=\"{width}\" height=\"{height}\" viewBox=\"0 0 {} {}\" \
         overflow=\"visible\" stroke-width=\"{}\">\n{each}</svg>\n",
        hundredths(frame.measure(width)),
        hundredths(frame.measure(height)),
        hundredths(frame.width),
    )
}

/// A canister: a square of side l with its number, at its place.
pub fn one_canister(frame: &Frame, tile: u32, canister: &Canister) -> String {
    let Canister { number, a, b } = canister;
    let (x, y) = frame.canister(tile, canister);
    let side = frame.length;
    format!(
        "<g id=\"canister-{number}\" class=\"canister\" transform=\"translate({} {})\">\
         <title>{number} on {tile} at ({a}, {b})</title>\
         <rect width=\"{side}\" height=\"{side}\"/>{}</g>\n",
        hundredths(x),
        hundredths(y),
        label(frame, *number),
    )
}

/// A number in the middle of its canister, as large as fits; one of more than
/// [`ONE_LINE`] digits on two lines.
fn label(frame: &Frame, number: u32) -> String {
    let digits = number.to_string();
    let lines = match digits.len() {
        0..=ONE_LINE => vec![digits.as_str()],
        length => {
            let (first, last) = digits.split_at(length / 2);
            vec![first, last]
        }
    };
    let size = font_size(frame, &lines);
    let middle = 50 * frame.length;
    // digits reach from their base to seven tenths of the font's size
    let first_base = middle + 35 * size / 100 - (lines.len() as u64 - 1) * size / 2;
    let texts = lines.iter().zip(0..).map(|(line, at)| {
        format!(
            "<text x=\"{}\" y=\"{}\" font-size=\"{}\">{line}</text>",
            hundredths(middle),
            hundredths(first_base + at * size),
            hundredths(size),
        )
    });
    texts.collect()
}

/// Of a label, in hundredths of a millimetre: nine tenths of the side for the
/// longest line and for all lines together, at most a fifth of the tile.
fn font_size(frame: &Frame, lines: &[&str]) -> u64 {
    let digits = lines
        .iter()
        .map(|line| line.len() as u64)
        .max()
        .unwrap_or(1);
    let room = 90 * frame.length;
    let by_width = room * 100 / (DIGIT * digits);
    let by_height = room / lines.len() as u64;
    by_width
        .min(by_height)
        .min(20 * frame.width)
        .min(60 * frame.length)
}

/// What the signs mean, in as many columns as the width in pixels has room for.
pub fn legend(width: u32) -> String {
    let columns = (width / ENTRY).max(1);
    entries()
        .iter()
        .zip(0..)
        .map(|((sign, words), at)| {
            let (x, y) = (at % columns * ENTRY, at / columns * LINE);
            format!(
                "<g transform=\"translate({x} {y})\">{sign}<text x=\"64\" y=\"15\">{words}</text></g>\n"
            )
        })
        .collect()
}

/// The height of [`legend`] at that width, in pixels.
pub fn legend_height(width: u32) -> u32 {
    let columns = (width / ENTRY).max(1);
    (entries().len() as u32).div_ceil(columns) * LINE
}

/// Each sign with its words.
fn entries() -> [(String, &'static str); 8] {
    let text =
        |class, x, words| format!("<text class=\"{class}\" x=\"{x}\" y=\"16\">{words}</text>");
    [
        (
            "<g class=\"canister\"><rect width=\"20\" height=\"20\"/>\
             <text x=\"10\" y=\"15\" font-size=\"14\">7</text></g>"
                .into(),
            "canister; number on 1 or 2 lines",
        ),
        (
            arrow("arrow", Side::North, "translate(8 10)", "") + &text("distance", 20, "3"),
            "leaves northward; distance 3",
        ),
        (text("number", 0, "12"), "tile number"),
        (text("distance", 0, "–"), "no arrow, no distance"),
        (badge(Kind::Hopper, 0, 1), "hopper"),
        (text("line", 0, "turn W"), "the west comes in next"),
        (badge(Kind::Fill, 0, 1), "fill tile"),
        (
            "<g class=\"stopped\"><rect class=\"bed\" width=\"48\" height=\"20\"/>\
             <rect class=\"hatch\" width=\"48\" height=\"20\"/></g>"
                .into(),
            "stopped tile",
        ),
    ]
}
