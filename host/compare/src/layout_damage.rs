//! Damage to the layouts in memory that must be 30.

use oracle::random::{self, Rng};
use oracle::{Floor, Layout, MAX_LAYOUTS};

const KINDS: [&str; 11] = [
    "bad letter",
    "letter after the filling",
    "name taken away",
    "unsorted",
    "repeated",
    "lowest hopper lacking",
    "another hopper lacking",
    "bit for no tile",
    "hole",
    "set in an unused place",
    "name in an unused place",
];

#[derive(Default)]
pub struct Counts(pub [u64; KINDS.len()]);

impl Counts {
    pub fn line(&self) -> (String, Vec<(&'static str, u64)>) {
        let cells = KINDS.into_iter().zip(self.0);
        ("floors with damaged layouts:".into(), cells.collect())
    }
}

/// Damages the layouts of a well-formed floor in one way, and gives its place
/// among the kinds. Nothing if that doesn't suit the floor, which is then as
/// it was.
pub fn damage(rng: &mut Rng, floor: &mut Floor) -> Option<usize> {
    let kind = rng.below(KINDS.len() as u64) as usize;
    let count = floor.layout_count();
    let at = rng.below(count.max(1) as u64) as usize;
    let suits = match kind {
        3 | 4 | 8 => at + 1 < count,
        9 | 10 => count < MAX_LAYOUTS,
        _ => at < count,
    };
    let done = suits && damage_one(rng, floor, kind, at, count);
    done.then_some(kind)
}

fn damage_one(rng: &mut Rng, floor: &mut Floor, kind: usize, at: usize, count: usize) -> bool {
    let settings = floor.settings;
    let lowest = settings.hoppers & settings.hoppers.wrapping_neg();
    let beyond = !settings.all_tiles();
    let layouts = &mut floor.layouts;
    let letters = layouts[at].letters();
    let end = letters.iter().position(|byte| *byte == 0).unwrap_or(8);
    match kind {
        0 => {
            let mut letters = letters;
            letters[rng.below(end as u64) as usize] = rng.pick(&[b'a', b'@', b'[', b'1', 255]);
            layouts[at].name = u64::from_be_bytes(letters);
        }
        1 if end < 7 => layouts[at].name |= u64::from(rng.range(65, 90) as u8),
        2 => layouts[at].name = 0,
        3 => layouts.swap(at, at + 1),
        4 => layouts[at].name = layouts[at + 1].name,
        5 => layouts[at].set &= !lowest,
        6 if settings.hoppers != lowest => {
            let others = settings.hoppers & !lowest;
            layouts[at].set &= !(others & others.wrapping_neg());
        }
        7 if beyond != 0 => layouts[at].set |= beyond & beyond.wrapping_neg(),
        8 => layouts[at] = Layout::ZERO,
        9 => layouts[count].set = settings.all_tiles(),
        10 => layouts[count].name = u64::from_be_bytes(random::name(rng)),
        _ => return false,
    }
    true
}
