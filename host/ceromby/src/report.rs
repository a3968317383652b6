//! What a round did.

use core::fmt;

use crate::raw::{self, reason};
use crate::tile::Side;

/// Why a tile stood in a round, the first that fits, or that it didn't.
#[derive(Clone, Copy, PartialEq, Eq, Hash, Debug)]
pub enum Reason {
    /// It was stopped.
    Stopped,
    /// It was empty when the round began; a hopper always is.
    Empty,
    /// It had no arrow: no running way leads to a hopper, as far as is known yet.
    NoArrow,
    /// The turn of the tile ahead was another's, before it passed on.
    Turn,
    /// There was no gap on the tile ahead.
    NoGap {
        /// The missing millimetres, the worst canister's.
        missing: u16,
    },
    /// It didn't stand: its canisters shifted.
    Moved,
}

impl Reason {
    fn of(code: u8, missing: u16) -> Option<Reason> {
        match code {
            reason::STOPPED => Some(Reason::Stopped),
            reason::EMPTY => Some(Reason::Empty),
            reason::NO_ARROW => Some(Reason::NoArrow),
            reason::TURN => Some(Reason::Turn),
            reason::NO_GAP => Some(Reason::NoGap { missing }),
            reason::MOVED => Some(Reason::Moved),
            _ => None,
        }
    }
}

impl fmt::Display for Reason {
    fn fmt(&self, f: &mut fmt::Formatter) -> fmt::Result {
        match self {
            Reason::Stopped => f.pad("stopped"),
            Reason::Empty => f.pad("empty when the round began"),
            Reason::NoArrow => f.pad("no arrow"),
            Reason::Turn => f.pad("the turn ahead was another's"),
            Reason::NoGap { missing } => write!(f, "no gap, {missing} mm missing"),
            Reason::Moved => f.pad("moved"),
        }
    }
}

/// What a round did: deliveries, grants, and why each tile stood.
///
/// ```
/// use ceromby::{Floor, Reason};
///
/// # fn main() -> Result<(), ceromby::Refusal> {
/// let mut floor = Floor::load(&[])?; // the standard floor
/// floor.book_anywhere(4, 1)?;
/// let report = floor.round()?;
/// assert_eq!(report.delivered().count(), 0);
/// assert_eq!(report.reason(4), Some(Reason::NoArrow));
/// for (tile, reason) in report.reasons() {
///     println!("tile {tile}: {reason}");
/// }
/// # Ok(())
/// # }
/// ```
#[derive(Clone, Copy, PartialEq, Eq, Default)]
pub struct Report {
    memory: raw::Report,
    /// Of the floor that the round was on.
    hoppers: u64,
}

impl Report {
    /// A report as C gets it, of a floor with these hoppers: one that was stored
    /// by [`Report::as_raw`] and [`Report::hoppers`].
    pub fn new(memory: raw::Report, hoppers: u64) -> Report {
        Report { memory, hoppers }
    }

    /// The set of hoppers of the floor that the round was on.
    pub fn hoppers(&self) -> u64 {
        self.hoppers
    }

    /// Each hopper's tile with the numbers that it took in, rising, at most four.
    pub fn deliveries(&self) -> impl Iterator<Item = (u32, &[u32])> + Clone {
        let each = raw::tiles(self.hoppers).zip(&self.memory.deliveries);
        each.map(|(hopper, delivery)| (hopper, delivery.used()))
    }

    /// All numbers that were delivered, hopper by hopper.
    pub fn delivered(&self) -> impl Iterator<Item = u32> + Clone + '_ {
        self.deliveries().flat_map(|(_, numbers)| numbers).copied()
    }

    /// Each tile of the floor with the reason why it stood, or [`Reason::Moved`].
    pub fn reasons(&self) -> impl Iterator<Item = (u32, Reason)> + Clone + '_ {
        (0..).map_while(|tile| Some((tile, self.reason(tile)?)))
    }

    /// Why a tile stood; none where there is no such tile.
    pub fn reason(&self, tile: u32) -> Option<Reason> {
        let at = usize::try_from(tile).ok()?;
        Reason::of(*self.memory.reasons.get(at)?, *self.memory.missing.get(at)?)
    }

    /// The tiles that granted a side, with that side.
    pub fn grants(&self) -> impl DoubleEndedIterator<Item = (u32, Side)> + Clone + '_ {
        (0..raw::MAX_TILES as u32).filter_map(|tile| Some((tile, self.grant(tile)?)))
    }

    /// The side that a tile granted, if it did.
    pub fn grant(&self, tile: u32) -> Option<Side> {
        let at = usize::try_from(tile).ok()?;
        Side::of(*self.memory.grants.get(at)?)
    }

    /// As C gets it.
    pub fn as_raw(&self) -> &raw::Report {
        &self.memory
    }
}

impl fmt::Debug for Report {
    fn fmt(&self, f: &mut fmt::Formatter) -> fmt::Result {
        f.debug_struct("Report")
            .field("deliveries", &Map(self.deliveries()))
            .field("grants", &Map(self.grants()))
            .field("reasons", &Map(self.reasons()))
            .finish()
    }
}

/// By tile.
pub(crate) struct Map<I>(pub I);

impl<I, V> fmt::Debug for Map<I>
where
    I: Iterator<Item = (u32, V)> + Clone,
    V: fmt::Debug,
{
    fn fmt(&self, f: &mut fmt::Formatter) -> fmt::Result {
        f.debug_map().entries(self.0.clone()).finish()
    }
}
