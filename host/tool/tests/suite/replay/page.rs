//! A page's data applied step by step, as the page's script does it.

use std::collections::BTreeMap;

use ceromby::{tiles, Reason, Side};
use ceromby_session::{Operation, Session};

use crate::json::{Parser, Value};

/// The floor at hand and the barge's.
pub type Places = [Option<Floor>; 5];

/// What a page knows of a floor.
#[derive(Clone, PartialEq, Debug, Default)]
pub struct Floor {
    settings: Vec<i64>,
    heads: Vec<i64>,
    reasons: Vec<i64>,
    counts: Vec<i64>,
    canisters: BTreeMap<i64, [i64; 3]>,
}

impl Value {
    /// The field of an object, if it has it.
    pub fn field(&self, name: &str) -> Option<&Value> {
        match self {
            Value::Object(fields) => fields.get(name),
            other => panic!("{other:?} is no object"),
        }
    }

    pub fn list(&self) -> &[Value] {
        match self {
            Value::List(all) => all,
            other => panic!("{other:?} is no list"),
        }
    }

    pub fn whole(&self) -> i64 {
        let number = self.number() as i64;
        assert_eq!(number as f64, self.number());
        number
    }

    pub fn numbers(&self) -> Vec<i64> {
        self.list().iter().map(Value::whole).collect()
    }
}

/// The data of a page.
pub fn data(html: &str) -> Value {
    let (_, rest) = html
        .split_once("<script type=\"application/json\" id=\"data\">")
        .expect("the data");
    let (data, _) = rest.split_once("</script>").expect("its end");
    // between steps; within texts it is escaped
    Parser::whole(&data.replace('\n', ""))
}

/// Makes a step, or undoes it.
pub fn apply(data: &Value, places: &mut Places, step: &Value, forwards: bool) {
    if let Some(moved) = step.field("f") {
        for moved in moved.list() {
            let [place, before, after] = moved.list() else {
                panic!("not place, before, after: {moved:?}");
            };
            let place = &mut places[place.whole() as usize];
            let (old, new) = if forwards {
                (before, after)
            } else {
                (after, before)
            };
            assert_eq!(
                *place,
                opened(data, old),
                "the floor that was there is another"
            );
            *place = opened(data, new);
        }
        return;
    }
    let row = |name: &str| step.field(name).map_or(vec![], Value::numbers);
    let Some(floor) = &mut places[shown(step)] else {
        assert_eq!((row("h"), row("c"), row("i")), (vec![], vec![], vec![]));
        return;
    };
    for (name, fields) in [("h", &mut floor.heads), ("r", &mut floor.reasons)] {
        for pair in row(name).chunks(2) {
            fields[pair[0] as usize] ^= pair[1];
        }
    }
    let sign = if forwards { 1 } else { -1 };
    for pair in row("c").chunks(2) {
        floor.counts[pair[0] as usize] += sign * pair[1];
    }
    let (gone, come, moves) = (row("o"), row("i"), row("m"));
    let shifts = step.field("s").map_or(vec![], |all| {
        all.list().iter().map(Value::numbers).collect()
    });
    if forwards {
        floor.take(&gone, 5);
        floor.shift(&shifts, 1);
        floor.step(&moves, 1);
        floor.put(&come, 4);
    } else {
        floor.take(&come, 4);
        floor.step(&moves, -1);
        floor.shift(&shifts, -1);
        floor.put(&gone, 5);
    }
}

/// Which place a step shows.
pub fn shown(step: &Value) -> usize {
    step.field("v").map_or(0, |place| place.whole() as usize)
}

impl Floor {
    fn take(&mut self, rows: &[i64], size: usize) {
        for row in rows.chunks(size) {
            let there = self.canisters.remove(&row[0]);
            assert_eq!(there, Some([row[1], row[2], row[3]]), "canister {}", row[0]);
        }
    }

    fn put(&mut self, rows: &[i64], size: usize) {
        for row in rows.chunks(size) {
            let there = self.canisters.insert(row[0], [row[1], row[2], row[3]]);
            assert_eq!(there, None, "canister {}", row[0]);
        }
    }

    fn shift(&mut self, shifts: &[Vec<i64>], sign: i64) {
        let before = self.canisters.clone();
        for shift in shifts {
            for (number, spot) in &mut self.canisters {
                if shift[2..].contains(&before[number][0]) {
                    spot[1] += sign * shift[0];
                    spot[2] += sign * shift[1];
                }
            }
        }
    }

    fn step(&mut self, moves: &[i64], sign: i64) {
        for row in moves.chunks(4) {
            let spot = self
                .canisters
                .get_mut(&row[0])
                .expect("a canister that moves");
            for (field, by) in spot.iter_mut().zip(&row[1..]) {
                *field += sign * by;
            }
        }
    }

    /// Of the library's.
    fn of(operation: &Operation) -> Floor {
        let floor = &operation.floor;
        let counters = floor.counters();
        let mut counts = vec![
            operation.rounds as i64,
            counters.last.into(),
            counters.booked.into(),
            floor.bound().unwrap().unconnected.into(),
        ];
        for ((_, record), delivered) in operation.throughput().zip(counters.delivered) {
            let rates = [record.last(), record.least(), record.greatest()];
            let open: [i64; 3] = [
                delivered.into(),
                record.rounds().into(),
                record.deliveries().into(),
            ];
            counts.extend(open);
            counts.extend(rates.map(|rate| rate.map_or(-1, |rate| (rate * 256.0) as i64)));
        }
        let reasons = floor.tiles().map(|(tile, _)| {
            let Some(report) = &operation.report else {
                return 0;
            };
            let (reason, missing) = match report.reason(tile).unwrap() {
                Reason::Stopped => (1, 0),
                Reason::Empty => (2, 0),
                Reason::NoArrow => (3, 0),
                Reason::Turn => (4, 0),
                Reason::NoGap { missing } => (5, missing.into()),
                Reason::Moved => (6, 0),
            };
            reason + 8 * side(report.grant(tile)) + 64 * missing
        });
        let heads = floor.tiles().map(|(_, tile)| {
            let distance = i64::from(tile.distance().unwrap_or(255));
            i64::from(tile.is_running())
                + 2 * side(tile.arrow())
                + 16 * side(tile.turn())
                + 128 * distance
        });
        Floor {
            settings: settings(floor.settings()),
            heads: heads.collect(),
            reasons: reasons.collect(),
            counts,
            canisters: floor
                .canisters()
                .map(|(tile, c)| (c.number.into(), [tile.into(), c.a.into(), c.b.into()]))
                .collect(),
        }
    }
}

fn side(side: Option<Side>) -> i64 {
    side.map_or(0, |side| side.code().into())
}

fn settings(settings: &ceromby::Settings) -> Vec<i64> {
    let set = |set: u64| tiles(set).map(i64::from).collect::<Vec<_>>();
    let measures = [
        settings.width,
        settings.length,
        settings.gap,
        settings.travel,
    ];
    let mut all = vec![settings.columns.into(), settings.rows.into()];
    all.extend(measures.map(i64::from));
    all.extend(set(settings.hoppers));
    all.push(-1);
    all.extend(set(settings.sources));
    all
}

/// A floor that stands whole in the data.
fn opened(data: &Value, view: &Value) -> Option<Floor> {
    if *view == Value::Null {
        return None;
    }
    let scene = &data.get("scenes").list()[view.get("s").whole() as usize];
    let mut settings: Vec<i64> = ["columns", "rows", "width", "length", "gap", "travel"]
        .iter()
        .map(|name| scene.get(name).whole())
        .collect();
    settings.extend(scene.get("hoppers").numbers());
    settings.push(-1);
    settings.extend(scene.get("sources").numbers());
    let mut floor = Floor {
        settings,
        heads: view.get("h").numbers(),
        reasons: view.get("r").numbers(),
        counts: view.get("c").numbers(),
        canisters: BTreeMap::new(),
    };
    floor.put(&view.get("k").numbers(), 4);
    Some(floor)
}

/// What the library has at each place.
pub fn expected(session: &Session) -> Places {
    let aboard = |floor| session.aboard(floor).map(Floor::of);
    [
        session.hand().map(Floor::of),
        aboard(0),
        aboard(1),
        aboard(2),
        aboard(3),
    ]
}
