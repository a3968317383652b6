//! Throughput: deliveries at one hopper over windows of 256 rounds (request
//! [2]). Rates are judged and made by their bits, without arithmetic on f64.

use crate::faults::{self, Fault};
use crate::refusal;

/// Rounds of a window.
pub const WINDOW: u16 = 256;
/// Most that a hopper takes in in a round.
pub const MOST: u32 = 4;

/// What is kept of the windows. Rates are deliveries over 256 rounds.
#[repr(C)]
#[derive(Clone, Copy, Debug)]
pub struct Throughput {
    pub last: f64,
    pub least: f64,
    pub greatest: f64,
    /// Rounds of the open window.
    pub rounds: u16,
    /// Deliveries of the open window.
    pub deliveries: u16,
    /// 0 until a window has closed.
    pub closed: u8,
}

/// What a round did to the window.
#[derive(Clone, Copy, Debug)]
pub enum Fed {
    /// It is still open and has so many rounds.
    Open { rounds: u16 },
    /// It closed with this rate.
    Closed { rate: f64 },
}

#[derive(Clone, Copy, PartialEq, Debug)]
pub struct FeedAnswer {
    pub throughput: Throughput,
    pub fed: Result<Fed, u8>,
}

impl Throughput {
    pub const ZERO: Throughput = Throughput {
        last: 0.0,
        least: 0.0,
        greatest: 0.0,
        rounds: 0,
        deliveries: 0,
        closed: 0,
    };

    /// The rates as bits: last, least, greatest.
    pub fn rate_bits(&self) -> [u64; 3] {
        [self.last, self.least, self.greatest].map(f64::to_bits)
    }
}

/// Bit for bit: NaN is itself, and the two zeros differ.
impl PartialEq for Throughput {
    fn eq(&self, other: &Throughput) -> bool {
        let counts = |one: &Throughput| (one.rounds, one.deliveries, one.closed);
        self.rate_bits() == other.rate_bits() && counts(self) == counts(other)
    }
}

/// Bit for bit.
impl PartialEq for Fed {
    fn eq(&self, other: &Fed) -> bool {
        match (self, other) {
            (Fed::Open { rounds }, Fed::Open { rounds: others }) => rounds == others,
            (Fed::Closed { rate }, Fed::Closed { rate: others }) => {
                rate.to_bits() == others.to_bits()
            }
            _ => false,
        }
    }
}

/// Bits of an f64's fraction, and the exponent's bits for 1.
const FRACTION: u32 = 52;
const ONE: u32 = 1_023;

/// The deliveries of a window with this rate: the rate times 256, if that is a
/// whole number from 0 to 1,024 and the rate isn't negative zero.
pub fn deliveries_of(rate: f64) -> Option<u32> {
    let bits = match rate.to_bits() {
        bits if faults::on(Fault::NegativeZero) && bits == 1 << 63 => 0,
        bits => bits,
    };
    if bits == 0 {
        return Some(0);
    }
    let exponent = (bits >> FRACTION) as u32;
    // 1/256 to 4; without sign, and neither subnormal nor infinite nor NaN.
    if !(ONE - 8..=ONE + 2).contains(&exponent) {
        return None;
    }
    let scaled = 1 << FRACTION | bits & ((1 << FRACTION) - 1);
    let shift = FRACTION + ONE - 8 - exponent;
    let whole = scaled >> shift;
    (whole << shift == scaled && whole <= 1_024).then_some(whole as u32)
}

/// The rate of a window with so many deliveries, at most 1,024.
fn rate_of(deliveries: u32) -> f64 {
    if deliveries == 0 {
        return 0.0;
    }
    let top = deliveries.ilog2();
    let fraction = (u64::from(deliveries) << (FRACTION - top)) & ((1 << FRACTION) - 1);
    f64::from_bits(u64::from(ONE - 8 + top) << FRACTION | fraction)
}

/// Deliveries in the windows of the three rates, for a record that isn't 30.
struct Known {
    least: u32,
    greatest: u32,
    closed: bool,
}

/// None: the record is 30.
fn known(record: &Throughput) -> Option<Known> {
    let [last, least, greatest] = [record.last, record.least, record.greatest].map(deliveries_of);
    let (last, least, greatest) = (last?, least?, greatest?);
    let closed = match faults::on(Fault::FlagTwo) {
        true => record.closed == 1,
        false => record.closed != 0,
    };
    let window_fits =
        record.rounds < WINDOW && u32::from(record.deliveries) <= MOST * u32::from(record.rounds);
    let ordered = least <= last && last <= greatest;
    let begun = closed || greatest == 0;
    (window_fits && ordered && begun).then_some(Known {
        least,
        greatest,
        closed,
    })
}

/// Takes a round's delivered count.
pub fn feed(record: &Throughput, count: u32) -> FeedAnswer {
    match checked_feed(record, count) {
        Ok((throughput, fed)) => FeedAnswer {
            throughput,
            fed: Ok(fed),
        },
        Err(refusal) => FeedAnswer {
            throughput: given_back(record),
            fed: Err(refusal),
        },
    }
}

/// The record of a refusal: as it came.
fn given_back(record: &Throughput) -> Throughput {
    let quieted = |rate: f64| match rate.is_nan() {
        true => f64::from_bits(rate.to_bits() | 1 << 51),
        false => rate,
    };
    match record {
        _ if faults::on(Fault::NanQuieted) => Throughput {
            last: quieted(record.last),
            least: quieted(record.least),
            greatest: quieted(record.greatest),
            ..*record
        },
        _ if faults::on(Fault::RefusedEmptied) => Throughput {
            rounds: 0,
            deliveries: 0,
            ..*record
        },
        _ => *record,
    }
}

fn checked_feed(record: &Throughput, count: u32) -> Result<(Throughput, Fed), u8> {
    let count = match faults::on(Fault::CountCut) {
        true => count & 255,
        false => count,
    };
    if faults::on(Fault::CountFirst) && count > MOST {
        return Err(refusal::COUNT_TOO_HIGH);
    }
    let known = known(record).ok_or(refusal::MALFORMED)?;
    if count > MOST {
        return Err(refusal::COUNT_TOO_HIGH);
    }
    let rounds = record.rounds + 1;
    let before = u32::from(record.deliveries);
    let deliveries = before + count;
    let window = match faults::on(Fault::ShortWindow) {
        true => WINDOW - 1,
        false => WINDOW,
    };
    if rounds < window {
        let closed = match faults::on(Fault::FlagNormal) {
            true => record.closed.min(1),
            false => record.closed,
        };
        let open = Throughput {
            rounds,
            deliveries: deliveries as u16,
            closed,
            ..*record
        };
        return Ok((open, Fed::Open { rounds }));
    }
    let closing = match faults::on(Fault::LastRoundLost) {
        true => before,
        false => deliveries,
    };
    Ok(close(&known, closing))
}

/// The record after a window closed with so many deliveries, and the answer.
fn close(known: &Known, deliveries: u32) -> (Throughput, Fed) {
    let rate = rate_of(deliveries);
    let least = match known.closed {
        false if faults::on(Fault::LeastUnset) => 0,
        false => deliveries,
        true => known.least.min(deliveries),
    };
    let throughput = Throughput {
        last: rate,
        least: rate_of(least),
        greatest: rate_of(known.greatest.max(deliveries)),
        rounds: 0,
        deliveries: 0,
        closed: 1,
    };
    (throughput, Fed::Closed { rate })
}
