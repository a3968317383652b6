//! Four floors with one allowance. Each call names a floor, 0 to 3, does there
//! what the call of the same name does on a lone one, and leaves the others.
//!
//! The calls are not inlined: in the frame of a caller, the answer would lie just
//! behind the arguments, and that happens to be where the library's own copy to
//! it begins 8 bytes after its source within a page, which the processor copies
//! some ten times slower (docs/PERFORMANCE.md).

use core::ptr;

use super::c;
use super::types::{Canister, Floor, Report};

/// The floors of a barge.
pub const FLOORS: usize = 4;
/// The greatest allowance; the least is 1.
pub const MAX_ALLOWANCE: u32 = 4_032;

/// Any bytes may stand here; a barge that isn't sound is refused by 30.
#[repr(C)]
#[derive(Clone, Copy, PartialEq, Eq, Debug)]
pub struct Barge {
    /// Numbered 0 to 3.
    pub floors: [Floor; FLOORS],
    /// With so many canisters aboard, or more, bookings are refused by 50.
    pub allowance: u32,
}

impl Barge {
    /// The canisters on all four floors.
    pub fn total(&self) -> u32 {
        let tiles = self.floors.iter().flat_map(|floor| &floor.tiles);
        tiles.map(|tile| u32::from(tile.count)).sum()
    }
}

/// The answer of a call that gives a barge.
#[must_use = "a call leaves the barge that it was handed"]
#[repr(C)]
#[derive(Clone, Copy, PartialEq, Eq, Debug)]
pub struct BargeAnswer {
    /// The barge after the call. Beside a refusal, the one that was handed in.
    pub barge: Barge,
    /// 0 for accepted.
    pub refusal: u8,
}

/// The answer of a booking without a place.
#[must_use = "a call leaves the barge that it was handed"]
#[repr(C)]
#[derive(Clone, Copy, PartialEq, Eq, Debug)]
pub struct BargePlaced {
    /// The barge after it. Beside a refusal, the one that was handed in.
    pub barge: Barge,
    /// The place that the canister took. Beside a refusal it is (0, 0), which
    /// is a place too; [`BargePlaced::place`] gives none then.
    pub a: u16,
    /// The same, northward.
    pub b: u16,
    /// 0 for accepted.
    pub refusal: u8,
}

impl BargePlaced {
    /// The place (a, b) that the canister took, if it was accepted.
    pub fn place(&self) -> Option<(u16, u16)> {
        (self.refusal == 0).then_some((self.a, self.b))
    }
}

/// The answer of a round.
#[must_use = "a call leaves the barge that it was handed"]
#[repr(C)]
#[derive(Clone, Copy, PartialEq, Eq, Debug)]
pub struct BargeRounded {
    /// The barge after it. Beside a refusal, the one that was handed in.
    pub barge: Barge,
    /// Of the floor that was named; all zero beside a refusal.
    pub report: Report,
    /// 0 for accepted.
    pub refusal: u8,
}

/// A floor of a barge in its place. The caller sees to it that the barge is
/// sound.
pub(crate) fn floor(barge: &Barge, floor: u32) -> Option<&crate::Floor> {
    let memory = barge.floors.get(usize::try_from(floor).ok()?)?;
    // SAFETY: `crate::Floor` is transparent over `Floor`, so a reference to the
    // one is one to the other. No `unsafe` rests on its being well formed.
    Some(unsafe { &*ptr::from_ref(memory).cast() })
}

/// The same, to be changed.
pub(crate) fn floor_mut(barge: &mut Barge, floor: u32) -> Option<&mut crate::Floor> {
    let memory = barge.floors.get_mut(usize::try_from(floor).ok()?)?;
    // SAFETY: as in `floor`; the borrow is exclusive.
    Some(unsafe { &mut *ptr::from_mut(memory).cast() })
}

/// Adds a canister to a tile of a floor.
#[inline(never)]
pub fn book(barge: &Barge, floor: u32, tile: u32, canister: Canister) -> BargeAnswer {
    // SAFETY: plain values in and out.
    unsafe { c::ceromby_barge_book(*barge, floor, tile, canister) }
}

/// Adds a canister at the lowest place that keeps the spacing.
/// [`BargePlaced::place`] tells it.
#[inline(never)]
pub fn book_anywhere(barge: &Barge, floor: u32, tile: u32, number: u32) -> BargePlaced {
    // SAFETY: plain values in and out.
    unsafe { c::ceromby_barge_book_anywhere(*barge, floor, tile, number) }
}

/// Stops a tile of a floor.
#[inline(never)]
pub fn stop(barge: &Barge, floor: u32, tile: u32) -> BargeAnswer {
    // SAFETY: plain values in and out.
    unsafe { c::ceromby_barge_stop(*barge, floor, tile) }
}

/// Sets a stopped tile of a floor running.
#[inline(never)]
pub fn repair(barge: &Barge, floor: u32, tile: u32) -> BargeAnswer {
    // SAFETY: plain values in and out.
    unsafe { c::ceromby_barge_repair(*barge, floor, tile) }
}

/// One round of a floor.
#[inline(never)]
pub fn round(barge: &Barge, floor: u32) -> BargeRounded {
    // SAFETY: plain values in and out.
    unsafe { c::ceromby_barge_round(*barge, floor) }
}
