//! Four floors with one allowance.

use core::fmt;

use crate::floor::Floor;
use crate::raw::barge::FLOORS;
use crate::raw::{self, Canister};
use crate::refusal::{accepted, Refusal};
use crate::report::Report;
use crate::tile::Place;

/// Four floors, numbered 0 to 3, with a joint allowance of canisters aboard.
/// Each call names a floor and does there what the method of the same name does
/// on a lone one; a booking is refused by [`Refusal::Overloaded`] while as many
/// canisters are aboard, on all four together, as are allowed, or more.
///
/// ```
/// use ceromby::{Barge, Floor, Refusal};
///
/// # fn main() -> Result<(), Refusal> {
/// let floor = Floor::load(&[])?; // the standard floor: fill tile 4
/// let mut barge = Barge::new([floor.clone(), floor.clone(), floor.clone(), floor], 1)?;
/// barge.book_anywhere(0, 4, 1)?;
/// assert_eq!(barge.book_anywhere(3, 4, 1), Err(Refusal::Overloaded));
/// while barge.aboard() > 0 {
///     barge.round(0)?;
/// }
/// barge.book_anywhere(3, 4, 1)?;
/// println!("{}", barge.floor(3)?);
/// # Ok(())
/// # }
/// ```
#[derive(Clone, PartialEq, Eq)]
pub struct Barge {
    memory: raw::Barge,
}

impl Barge {
    /// A barge with an allowance of 1 to 4,032; any other is refused by
    /// [`Refusal::Malformed`].
    pub fn new(floors: [Floor; FLOORS], allowance: u32) -> Result<Barge, Refusal> {
        Barge::try_from(raw::Barge {
            floors: floors.map(|floor| floor.memory),
            allowance,
        })
    }

    /// Adds a canister to a tile of a floor.
    pub fn book(&mut self, floor: u32, tile: u32, canister: Canister) -> Result<(), Refusal> {
        let answer = raw::barge::book(&self.memory, floor, tile, canister);
        self.take(answer.refusal, floor, &answer.barge)
    }

    /// Adds a canister at the lowest place that keeps the spacing, and tells it.
    pub fn book_anywhere(&mut self, floor: u32, tile: u32, number: u32) -> Result<Place, Refusal> {
        let placed = raw::barge::book_anywhere(&self.memory, floor, tile, number);
        self.take(placed.refusal, floor, &placed.barge)?;
        Ok(Place {
            a: placed.a,
            b: placed.b,
        })
    }

    /// Stops a tile of a floor.
    pub fn stop(&mut self, floor: u32, tile: u32) -> Result<(), Refusal> {
        let answer = raw::barge::stop(&self.memory, floor, tile);
        self.take(answer.refusal, floor, &answer.barge)
    }

    /// Sets a stopped tile of a floor running.
    pub fn repair(&mut self, floor: u32, tile: u32) -> Result<(), Refusal> {
        let answer = raw::barge::repair(&self.memory, floor, tile);
        self.take(answer.refusal, floor, &answer.barge)
    }

    /// One round of a floor; the report is that floor's.
    pub fn round(&mut self, floor: u32) -> Result<Report, Refusal> {
        let rounded = raw::barge::round(&self.memory, floor);
        self.take(rounded.refusal, floor, &rounded.barge)?;
        let hoppers = self.floor(floor)?.settings().hoppers;
        Ok(Report::new(rounded.report, hoppers))
    }

    /// Takes the floor that an accepted call named; it leaves the other three
    /// and the allowance.
    fn take(&mut self, refusal: u8, floor: u32, after: &raw::Barge) -> Result<(), Refusal> {
        accepted(refusal)?;
        let at = floor as usize;
        self.memory.floors[at] = after.floors[at];
        Ok(())
    }

    /// A floor by itself: to read, to write, to look at. Refused by
    /// [`Refusal::NoFloor`].
    pub fn floor(&self, floor: u32) -> Result<&Floor, Refusal> {
        raw::barge::floor(&self.memory, floor).ok_or(Refusal::NoFloor)
    }

    /// The same, for what isn't offered on a barge: lists, layouts, a plan, or
    /// another floor in its place. These calls don't know the allowance.
    pub fn floor_mut(&mut self, floor: u32) -> Result<&mut Floor, Refusal> {
        raw::barge::floor_mut(&mut self.memory, floor).ok_or(Refusal::NoFloor)
    }

    /// The canisters on all four floors.
    pub fn aboard(&self) -> u32 {
        self.memory.total()
    }

    /// With so many canisters aboard, or more, bookings are refused.
    pub fn allowance(&self) -> u32 {
        self.memory.allowance
    }

    /// Another allowance; refused as by [`Barge::new`]. It may be below what is
    /// aboard: then nothing is booked until enough have been delivered.
    pub fn set_allowance(&mut self, allowance: u32) -> Result<(), Refusal> {
        let before = self.memory.allowance;
        self.memory.allowance = allowance;
        let found = sound(&self.memory);
        if found.is_err() {
            self.memory.allowance = before;
        }
        found
    }

    /// As C gets it.
    pub fn as_raw(&self) -> &raw::Barge {
        &self.memory
    }
}

/// Whether a barge is sound: that is tested first, then the floor's number.
fn sound(memory: &raw::Barge) -> Result<(), Refusal> {
    match raw::barge::round(memory, u32::MAX).refusal {
        raw::refusal::NO_FLOOR => Ok(()),
        other => accepted(other),
    }
}

/// Refused by [`Refusal::Malformed`] if it isn't sound.
impl TryFrom<raw::Barge> for Barge {
    type Error = Refusal;

    fn try_from(memory: raw::Barge) -> Result<Barge, Refusal> {
        sound(&memory)?;
        Ok(Barge { memory })
    }
}

impl fmt::Debug for Barge {
    fn fmt(&self, f: &mut fmt::Formatter) -> fmt::Result {
        struct Floors<'a>(&'a Barge);

        impl fmt::Debug for Floors<'_> {
            fn fmt(&self, f: &mut fmt::Formatter) -> fmt::Result {
                let floors = (0..FLOORS as u32).filter_map(|at| self.0.floor(at).ok());
                f.debug_list().entries(floors).finish()
            }
        }

        f.debug_struct("Barge")
            .field("floors", &Floors(self))
            .field("allowance", &self.allowance())
            .finish()
    }
}
