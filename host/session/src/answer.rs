//! What a call gave, or why it gave nothing.

use std::fmt;

use ceromby::{Booking, Canister, Entry, Refusal, Report, Settings};

/// What an accepted call gave.
// a round has 400 bytes; answers are looked at and not kept
#[allow(clippy::large_enum_variant)]
#[derive(Clone, PartialEq, Debug)]
pub enum Answer {
    /// `fresh`, `load` and `take`: another floor is at hand.
    Begun {
        /// What the floor was made with.
        settings: Settings,
        /// Whether a plan that had entries ended with the floor before it.
        plan_ended: bool,
    },
    /// Either sort of booking: where the canister is to be set.
    Booked {
        /// Its tile.
        tile: u32,
        /// Its number and place.
        canister: Canister,
    },
    /// A list of bookings: its entries, each with its own answer.
    Listed(Vec<Booking>),
    /// Carried out, and there is nothing to tell: a stop, a repair, a layout, an
    /// allowance, an empty plan.
    Done,
    /// A round.
    Round(Round),
    /// An entry as the plan took it.
    Entered(Entry),
    /// A release: the canister that a label became.
    Released {
        /// The label.
        label: u8,
        /// The tile of its entry.
        tile: u32,
        /// Its number and place.
        canister: Canister,
    },
    /// `put`: the floor at hand is on the barge now.
    Put {
        /// Whether a plan that had entries ended with it.
        plan_ended: bool,
    },
}

/// What a round did.
#[derive(Clone, PartialEq, Debug)]
pub struct Round {
    /// How many rounds the floor has gone since it came to its place, this one
    /// included.
    pub number: u64,
    /// The library's report.
    pub report: Report,
    /// The windows of throughput that it closed.
    pub closed: Vec<Closed>,
    /// The labels of the plan that it delivered, in the plan's order.
    pub labels: Vec<u8>,
}

/// A window of 256 rounds that closed.
#[derive(Clone, Copy, PartialEq, Debug)]
pub struct Closed {
    /// The hopper's tile.
    pub hopper: u32,
    /// Deliveries a round.
    pub rate: f64,
}

/// Why a call was not carried out. The session is as it was.
#[derive(Clone, Copy, PartialEq, Eq, Debug)]
pub enum Denial {
    /// The library refused it, by the papers' number.
    Refused(Refusal),
    /// There is no floor at hand.
    NoFloor,
    /// The floor at hand holds so many canisters, and the call would give it up.
    Holds(u32),
    /// The barge's floor of that number holds canisters, and the call would give
    /// it up.
    BargeHolds {
        /// The floor's number.
        floor: u32,
        /// How many it holds.
        canisters: u32,
    },
    /// The barge has no floor of that number, 0 to 3, at the moment.
    NotOnBarge(u32),
    /// The plan has 64 entries already.
    PlanFull,
}

impl Denial {
    /// The papers' number, where the library refused the call.
    pub fn refusal(&self) -> Option<Refusal> {
        match self {
            Denial::Refused(refusal) => Some(*refusal),
            _ => None,
        }
    }
}

impl From<Refusal> for Denial {
    fn from(refusal: Refusal) -> Denial {
        Denial::Refused(refusal)
    }
}

impl fmt::Display for Denial {
    fn fmt(&self, f: &mut fmt::Formatter) -> fmt::Result {
        match self {
            Denial::Refused(refusal) => write!(f, "refused {}: {refusal}", refusal.number()),
            Denial::NoFloor => f.write_str("there is no floor; begin with fresh, load or take"),
            Denial::Holds(canisters) => write!(f, "the floor holds {}", Amount(*canisters)),
            Denial::BargeHolds { floor, canisters } => {
                write!(f, "floor {floor} of the barge holds {}", Amount(*canisters))
            }
            Denial::NotOnBarge(_) => f.write_str("the barge hasn't that floor"),
            Denial::PlanFull => f.write_str("the plan has 64 entries"),
        }
    }
}

impl std::error::Error for Denial {}

/// How many canisters, in words.
struct Amount(u32);

impl fmt::Display for Amount {
    fn fmt(&self, f: &mut fmt::Formatter) -> fmt::Result {
        let plural = if self.0 == 1 { "" } else { "s" };
        write!(f, "{} canister{plural}", self.0)
    }
}
