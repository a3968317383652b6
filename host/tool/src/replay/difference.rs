//! A floor as the numbers that a page keeps of it, and how they change from one
//! step to the next. A difference is undone exactly: sets of bits are changed by
//! exclusive or, numbers by addition, and canisters that leave are stored with
//! their place.

use std::collections::BTreeMap;
use std::fmt::{self, Write};

use ceromby::{Floor, Report, Settings, Throughput};
use ceromby_session::Operation;

/// What a page shows of a floor in operation.
#[derive(Clone, PartialEq, Debug)]
pub struct View {
    /// What the floor was made with.
    pub settings: Settings,
    heads: Vec<u32>,
    reasons: Vec<u32>,
    counts: Vec<i64>,
    canisters: BTreeMap<u32, Spot>,
}

/// Tile, a and b.
type Spot = [i64; 3];

impl View {
    /// Of a floor as it is now.
    pub fn of(operation: &Operation) -> View {
        let floor = &operation.floor;
        let tiles = floor.tiles().len();
        View {
            settings: *floor.settings(),
            heads: heads(floor),
            reasons: (0..tiles)
                .map(|tile| operation.report.map_or(0, |report| reason(&report, tile)))
                .collect(),
            counts: counts(operation),
            canisters: floor
                .canisters()
                .map(|(tile, c)| (c.number, [tile.into(), c.a.into(), c.b.into()]))
                .collect(),
        }
    }

    /// Writes it as JSON; `scene` is the number of its settings.
    pub fn write(&self, scene: usize, out: &mut String) {
        let canisters = self.canisters.iter();
        let canisters =
            canisters.flat_map(|(number, [tile, a, b])| [(*number).into(), *tile, *a, *b]);
        let _ = write!(
            out,
            "{{\"s\":{scene},\"h\":[{}],\"r\":[{}],\"c\":[{}],\"k\":[{}]}}",
            Commas(&self.heads),
            Commas(&self.reasons),
            Commas(&self.counts),
            Commas(&canisters.collect::<Vec<i64>>()),
        );
    }
}

/// Each tile's fields in one number: running in bit 0, arrow in bits 1 to 3,
/// turn in 4 to 6, distance from 7 on, 255 for none.
fn heads(floor: &Floor) -> Vec<u32> {
    let heads = floor.tiles().map(|(_, tile)| {
        let side = |side: Option<ceromby::Side>| side.map_or(0, |side| u32::from(side.code()));
        u32::from(tile.is_running())
            | side(tile.arrow()) << 1
            | side(tile.turn()) << 4
            | u32::from(tile.distance().unwrap_or(u8::MAX)) << 7
    });
    heads.collect()
}

/// What a round's report says of a tile in one number: reason in bits 0 to 2,
/// the side that was granted in 3 to 5, missing millimetres from 6 on.
fn reason(report: &Report, tile: usize) -> u32 {
    let report = report.as_raw();
    let (reason, grant) = (report.reasons[tile], report.grants[tile]);
    u32::from(reason) | u32::from(grant) << 3 | u32::from(report.missing[tile]) << 6
}

/// Rounds, last number, booked, canisters without a way to a hopper; then for
/// each hopper what [`record`] gives.
fn counts(operation: &Operation) -> Vec<i64> {
    let counters = operation.floor.counters();
    // a floor that a session holds is sound: never refused
    let no_way = operation.floor.bound().map_or(0, |bound| bound.unconnected);
    let mut counts = vec![
        operation.rounds as i64,
        counters.last.into(),
        counters.booked.into(),
        no_way.into(),
    ];
    for ((_, throughput), delivered) in operation.throughput().zip(counters.delivered) {
        counts.push(delivered.into());
        counts.extend(record(throughput));
    }
    counts
}

/// Rounds and deliveries of the open window; last, least and greatest rate of
/// the closed ones as deliveries in 256 rounds, which is exact, -1 for none.
fn record(throughput: &Throughput) -> [i64; 5] {
    let window =
        |rate: Option<f64>| rate.map_or(-1, |rate| (rate * f64::from(ceromby::WINDOW)) as i64);
    [
        throughput.rounds().into(),
        throughput.deliveries().into(),
        window(throughput.last()),
        window(throughput.least()),
        window(throughput.greatest()),
    ]
}

/// Numbers that a delivery takes in [`Difference::gone`].
const GONE: usize = 5;

/// What changed of a floor.
#[derive(Clone, PartialEq, Debug, Default)]
pub struct Difference {
    /// Tile and the bits that changed, by turns.
    heads: Vec<u32>,
    /// The same of what the last report says.
    reasons: Vec<u32>,
    /// Which count and by how much, by turns.
    counts: Vec<i64>,
    /// Delivered: number, tile, a, b before, and the hopper, by turns.
    gone: Vec<i64>,
    /// All canisters of the tiles that are named shifted by so much.
    shifts: BTreeMap<[i64; 2], Vec<i64>>,
    /// Number and by how much tile, a and b changed beside a shift, by turns.
    moves: Vec<i64>,
    /// Booked: number, tile, a, b, by turns.
    come: Vec<i64>,
}

impl Difference {
    /// From one view of a floor to the next, with the report of the round between
    /// them, if there was one.
    pub fn between(before: &View, after: &View, report: Option<&Report>) -> Difference {
        let mut difference = Difference {
            heads: bits(&before.heads, &after.heads),
            reasons: bits(&before.reasons, &after.reasons),
            ..Difference::default()
        };
        for (at, (old, new)) in (0..).zip(before.counts.iter().zip(&after.counts)) {
            if old != new {
                difference.counts.extend([at, new - old]);
            }
        }
        difference.leave(before, after, report);
        difference.shift(before, after);
        for (number, [tile, a, b]) in &after.canisters {
            if !before.canisters.contains_key(number) {
                difference.come.extend([(*number).into(), *tile, *a, *b]);
            }
        }
        difference
    }

    /// How many canisters were delivered.
    pub fn delivered(&self) -> usize {
        self.gone.len() / GONE
    }

    fn leave(&mut self, before: &View, after: &View, report: Option<&Report>) {
        let hopper_of = |number: u32| {
            let mut hoppers = report?.deliveries();
            let hopper = hoppers.find(|(_, numbers)| numbers.contains(&number))?;
            Some(i64::from(hopper.0))
        };
        for (number, [tile, a, b]) in &before.canisters {
            if !after.canisters.contains_key(number) {
                let hopper = hopper_of(*number).unwrap_or(*tile);
                self.gone.extend([(*number).into(), *tile, *a, *b, hopper]);
            }
        }
    }

    /// Canisters of a tile mostly shift together: that is stored once for the
    /// tile, and what else a canister did, as crossing to the next tile, beside
    /// it.
    fn shift(&mut self, before: &View, after: &View) {
        let mut by_tile: BTreeMap<i64, Vec<(u32, Spot)>> = BTreeMap::new();
        for (number, old) in &before.canisters {
            if let Some(new) = after.canisters.get(number) {
                let way = [new[0] - old[0], new[1] - old[1], new[2] - old[2]];
                by_tile.entry(old[0]).or_default().push((*number, way));
            }
        }
        for (tile, ways) in by_tile {
            let on_tile = ways.iter().map(|(_, way)| way).filter(|way| way[0] == 0);
            let [east, north] = on_tile
                .map(|way| [way[1], way[2]])
                .next()
                .unwrap_or_default();
            if [east, north] != [0, 0] {
                self.shifts.entry([east, north]).or_default().push(tile);
            }
            for (number, [tiles, a, b]) in ways {
                if [tiles, a, b] != [0, east, north] {
                    self.moves
                        .extend([number.into(), tiles, a - east, b - north]);
                }
            }
        }
    }

    /// Writes its fields as JSON, each after a comma, those without anything left
    /// out.
    pub fn write(&self, out: &mut String) {
        field(out, "h", &self.heads);
        field(out, "r", &self.reasons);
        field(out, "c", &self.counts);
        field(out, "o", &self.gone);
        let shifts: Vec<String> = self
            .shifts
            .iter()
            .map(|([a, b], tiles)| format!("[{a},{b},{}]", Commas(tiles)))
            .collect();
        field(out, "s", &shifts);
        field(out, "m", &self.moves);
        field(out, "i", &self.come);
    }
}

/// Where two rows of numbers differ: place and the bits that do, by turns.
fn bits(before: &[u32], after: &[u32]) -> Vec<u32> {
    let pairs = (0..).zip(before.iter().zip(after));
    let differing = pairs.filter(|(_, (old, new))| old != new);
    differing
        .flat_map(|(at, (old, new))| [at, old ^ new])
        .collect()
}

fn field<T: fmt::Display>(out: &mut String, name: &str, values: &[T]) {
    if !values.is_empty() {
        let _ = write!(out, ",\"{name}\":[{}]", Commas(values));
    }
}

/// Values with commas between them.
struct Commas<'a, T>(&'a [T]);

impl<T: fmt::Display> fmt::Display for Commas<'_, T> {
    fn fmt(&self, f: &mut fmt::Formatter) -> fmt::Result {
        for (at, value) in self.0.iter().enumerate() {
            let comma = if at == 0 { "" } else { "," };
            write!(f, "{comma}{value}")?;
        }
        Ok(())
    }
}
