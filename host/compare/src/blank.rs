//! Images of zero to three bytes (request [9]): what a load must make of
//! them, and how many the runs met.

use ::ceromby::raw as ceromby;
use oracle::random::Rng;
use oracle::{Floor, Report, STANDARD};

use crate::call::{Call, Outcome, Trouble};

/// The loads required of a run, of zero bytes and of one to three.
const LEAST: u64 = 1_000;

/// The load of a new controller's image.
pub const LOAD: Call = Call::Load { bytes: Vec::new() };

/// A load of one to three bytes, any or those that images begin with.
pub fn short_load(rng: &mut Rng) -> Call {
    let mut bytes = match rng.chance(1, 2) {
        true => vec![rng.pick(&[20, 28]), 0, 1],
        false => (0..3).map(|_| rng.draw() as u8).collect(),
    };
    bytes.truncate(rng.range(1, 3) as usize);
    Call::Load { bytes }
}

/// Zero bytes load what the library gives as the fresh floor of the standard
/// settings; one to three bytes are 9.
pub fn check(bytes: &[u8], outcome: &Outcome) -> Result<(), Trouble> {
    let Outcome::Answer(answer) = outcome else {
        return Ok(());
    };
    let fits = match bytes.len() {
        0 => {
            let fresh = ceromby::fresh(convert::to_settings(&STANDARD));
            fresh.refusal == 0 && *answer == convert::from_answer(&fresh)
        }
        1..=3 => answer.refusal == 9,
        _ => true,
    };
    let text = match (fits, answer.refusal) {
        (true, _) => return Ok(()),
        (false, 0) if bytes.is_empty() => "zero bytes load another floor".into(),
        (false, refusal) => format!("load answers {refusal} for {} bytes", bytes.len()),
    };
    Err(Trouble::promise("blank controller", text))
}

#[derive(Default)]
pub struct Counts {
    /// By the number of bytes.
    loads: [u64; 4],
    /// Canisters delivered on floors with the standard settings.
    delivered: u64,
}

impl Counts {
    pub fn note_load(&mut self, bytes: &[u8]) {
        if let Some(count) = self.loads.get_mut(bytes.len()) {
            *count += 1;
        }
    }

    pub fn note_round(&mut self, before: &Floor, report: &Report) {
        if before.settings == STANDARD {
            self.delivered += report.delivered().count() as u64;
        }
    }

    pub fn add(&mut self, more: &Counts) {
        for (count, more) in self.loads.iter_mut().zip(more.loads) {
            *count += more;
        }
        self.delivered += more.delivered;
    }

    /// Counts, each with its name and how many are required.
    pub fn events(&self) -> [(&'static str, u64, u64); 6] {
        let [zero, one, two, three] = self.loads;
        [
            ("loads of zero bytes", zero, LEAST),
            ("loads of one to three bytes", one + two + three, LEAST),
            ("of them one byte", one, 1),
            ("of them two bytes", two, 1),
            ("of them three bytes", three, 1),
            ("delivered on the standard floor", self.delivered, 1),
        ]
    }
}
