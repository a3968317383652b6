//! The floor as a page of text (request [7]): the call held to the paper, and
//! what the runs met of it.

use ::ceromby::raw as ceromby;
use oracle::random::{self, Rng};
use oracle::{Floor, Settings, WriteAnswer, LONGEST_PAGE, NONE};

use crate::call::Trouble;
use crate::tally::line;

/// A page as C gets it, so that the length beside a refusal is compared too.
/// The binding's own answer must be the same, without that length. The two
/// buffers are blank before.
pub fn by_library(floor: &ceromby::Floor, buffer: &mut [u8], other: &mut [u8]) -> ceromby::Written {
    let answer = ceromby::as_in_c::page(floor, buffer);
    let due = match answer.refusal {
        0 => Ok(answer.length as usize),
        refusal => Err(refusal),
    };
    let same = ceromby::page(floor, other) == due && buffer == other;
    assert!(same, "the binding gives another answer to a page");
    answer
}

/// H x (8 x W + 2).
pub fn length(settings: &Settings) -> usize {
    usize::from(settings.rows) * (8 * usize::from(settings.columns) + 2)
}

/// The page that a floor asks for. A well-formed one has a page.
fn due(floor: &Floor) -> Option<String> {
    let settings = &floor.settings;
    let rows = usize::from(settings.rows);
    let mut page = String::new();
    for row in (0..rows).rev() {
        page.push('|');
        for column in 0..usize::from(settings.columns) {
            let tile = floor.tiles.get(column * rows + row)?;
            let arrow = ARROWS.get(usize::from(tile.next))?;
            let distance = match (tile.running, tile.distance) {
                (0, _) => "XX".into(),
                (_, NONE) => "--".into(),
                (_, distance) => distance.to_string(),
            };
            page += &format!("{:>2} {arrow} {distance:>2}|", tile.count);
        }
        page.push('\n');
    }
    Some(page)
}

/// Holds an accepted page, or one that is 43, to the floor. What stands after
/// the page, and in the buffer of a refusal, is checked for all writing.
pub fn check(floor: &Floor, answer: &WriteAnswer, buffer: &[u8]) -> Result<(), Trouble> {
    let broken = |text| Err(Trouble::promise("page", text));
    if answer.refusal == 30 {
        return Ok(());
    }
    let Some(page) = due(floor) else {
        return broken(format!("{answer:?} for a floor that has no page"));
    };
    if page.len() != length(&floor.settings) {
        return broken(format!("a page of {} bytes", page.len()));
    }
    let fits = match page.len() <= buffer.len() {
        true => answer.refusal == 0 && answer.length as usize == page.len(),
        false => answer.refusal == 43,
    };
    if !fits {
        let size = buffer.len();
        return broken(format!(
            "{answer:?} to {size} bytes for {} of the page",
            page.len()
        ));
    }
    match answer.refusal != 0 || buffer.starts_with(page.as_bytes()) {
        true => Ok(()),
        false => broken(format!("the page isn't\n{page}")),
    }
}

const TAKEN: [&str; 3] = ["exact", "one more", "larger"];
const SHORT: [&str; 4] = ["0", "1", "one less", "other"];
const MALFORMED: [&str; 3] = ["0", "shorter", "large enough"];
const ARROWS: [&str; 5] = ["-", "W", "S", "N", "E"];
const HELD: [&str; 4] = ["0", "1 to 9", "10 to 15", "16"];
const DISTANCES: [&str; 5] = ["0", "1 to 9", "10 to 63", "--", "XX"];
const STOPPED: [&str; 2] = ["empty", "with canisters"];

#[derive(Default)]
pub struct Counts {
    /// By the size of the buffer: accepted, 43, 30.
    taken: [u64; TAKEN.len()],
    short: [u64; SHORT.len()],
    malformed: [u64; MALFORMED.len()],
    /// Tiles on the pages.
    arrows: [u64; ARROWS.len()],
    held: [u64; HELD.len()],
    distances: [u64; DISTANCES.len()],
    stopped: [u64; STOPPED.len()],
    /// Pages by columns and rows.
    grids: [[u64; 8]; 8],
}

impl Counts {
    pub fn note(&mut self, floor: &Floor, size: usize, refusal: u8) {
        let length = length(&floor.settings);
        match refusal {
            0 => self.taken[(size - length).min(2)] += 1,
            30 => {
                self.malformed[match size {
                    0 => 0,
                    _ if size < length => 1,
                    _ => 2,
                }] += 1
            }
            _ => {
                self.short[match size {
                    0 | 1 => size,
                    _ if size + 1 == length => 2,
                    _ => 3,
                }] += 1
            }
        }
        if refusal == 0 {
            self.note_tiles(floor);
        }
    }

    fn note_tiles(&mut self, floor: &Floor) {
        let settings = &floor.settings;
        let (columns, rows) = (usize::from(settings.columns), usize::from(settings.rows));
        self.grids[columns - 1][rows - 1] += 1;
        for tile in &floor.tiles[..settings.tile_count()] {
            self.arrows[usize::from(tile.next)] += 1;
            self.held[match tile.count {
                0 => 0,
                1..=9 => 1,
                10..=15 => 2,
                _ => 3,
            }] += 1;
            self.distances[match tile.distance {
                _ if tile.running == 0 => 4,
                NONE => 3,
                10.. => 2,
                1.. => 1,
                0 => 0,
            }] += 1;
            if tile.running == 0 {
                self.stopped[usize::from(tile.count > 0)] += 1;
            }
        }
    }

    /// How many of the 63 sizes of a floor had a page.
    pub fn sizes(&self) -> u64 {
        let met = self.grids.iter().flatten().filter(|count| **count > 0);
        met.count() as u64
    }

    /// Lines of counts, each with its name.
    pub fn lines(&self) -> Vec<(String, Vec<(String, u64)>)> {
        vec![
            line("pages by buffer:", &TAKEN, &self.taken),
            line("buffers that are 43:", &SHORT, &self.short),
            line("buffers of malformed floors:", &MALFORMED, &self.malformed),
            line("arrows on pages:", &ARROWS, &self.arrows),
            line("counts on pages:", &HELD, &self.held),
            line("distances on pages:", &DISTANCES, &self.distances),
            line("stopped tiles on pages:", &STOPPED, &self.stopped),
        ]
    }
}

/// The size of a buffer, near the page's length.
pub fn buffer_size(rng: &mut Rng, floor: &Floor) -> usize {
    let length = length(&floor.settings);
    match rng.below(8) {
        0 => rng.below(2) as usize,
        1 => length.saturating_sub(1),
        2 => rng.below(length as u64 + 1) as usize,
        3 | 4 => length,
        5 => length + 1,
        6 => length + rng.below(40) as usize,
        _ => LONGEST_PAGE + rng.below(1_000) as usize,
    }
}

/// Any well-formed floor, with each number of columns and rows as often.
pub fn any_floor(rng: &mut Rng) -> Floor {
    let (columns, rows) = match (rng.range(1, 8) as u8, rng.range(1, 8) as u8) {
        (1, 1) => (1, 2),
        sides => sides,
    };
    let bare = Settings {
        columns,
        rows,
        sources: 0,
        ..random::settings(rng)
    };
    let count = rng.pick(&[1, 1, 2, 4]);
    let hoppers = random::hoppers(rng, &bare, count);
    random::floor_with(rng, Settings { hoppers, ..bare })
}
