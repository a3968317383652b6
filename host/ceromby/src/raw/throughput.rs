//! Throughput at one hopper, over windows of 256 rounds.

use super::c;

/// Rounds of a window.
pub const WINDOW: u16 = 256;

/// The byte `kind` of a feed that was refused.
pub const FED_REFUSED: u8 = 0;
/// Of one after which the window is still open.
pub const FED_OPEN: u8 = 1;
/// Of one that closed the window.
pub const FED_CLOSED: u8 = 2;

/// What is kept of the windows. A new record is the default, all zero. Any
/// bytes may stand here; a record that isn't sound is refused by 30.
#[repr(C)]
#[derive(Clone, Copy, PartialEq, Debug, Default)]
pub struct Throughput {
    /// Rate of the last closed window: deliveries divided by 256, so 0 to 4.
    pub last: f64,
    /// The least of all closed windows.
    pub least: f64,
    /// The greatest.
    pub greatest: f64,
    /// Rounds of the open window, 0 to 255.
    pub rounds: u16,
    /// Deliveries of the open window.
    pub deliveries: u16,
    /// 0 until a window has closed; any other byte: one has.
    pub closed: u8,
}

/// The answer of a feed as C gets it, `ceromby_fed` there; [`feed`] gives it as
/// [`Fed`] or the number of the refusal.
#[repr(C)]
#[derive(Clone, Copy, PartialEq, Debug)]
pub struct Told {
    /// The record after it. Beside a refusal, as it came.
    pub throughput: Throughput,
    /// 0 unless the window closed.
    pub rate: f64,
    /// 0 unless it is still open.
    pub rounds: u16,
    /// [`FED_REFUSED`], [`FED_OPEN`] or [`FED_CLOSED`].
    pub kind: u8,
    /// 0 for accepted.
    pub refusal: u8,
}

/// What a round did to the window.
#[derive(Clone, Copy, PartialEq, Debug)]
pub enum Fed {
    /// It is still open.
    Open {
        /// How many it has, 1 to 255, this one included.
        rounds: u16,
    },
    /// It closed.
    Closed {
        /// Times 256 it is the window's deliveries exactly.
        rate: f64,
    },
}

/// Takes a round's delivered count at one hopper, [`super::Delivery::count`], and
/// gives the record after it, or the number of the refusal. Refused, the record
/// stays what it was.
pub fn feed(throughput: &Throughput, count: u32) -> Result<(Throughput, Fed), u8> {
    let told = told(throughput, count);
    let fed = match told.kind {
        FED_OPEN => Fed::Open {
            rounds: told.rounds,
        },
        FED_CLOSED => Fed::Closed { rate: told.rate },
        _ => return Err(told.refusal),
    };
    Ok((told.throughput, fed))
}

/// The answer of a feed as C gets it.
pub(crate) fn told(throughput: &Throughput, count: u32) -> Told {
    // SAFETY: plain values in and out.
    unsafe { c::ceromby_feed(*throughput, count) }
}
