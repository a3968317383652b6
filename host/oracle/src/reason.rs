//! Why a tile stood in a round; the first that fits.

pub const STOPPED: u8 = 1;
/// When the round began.
pub const EMPTY: u8 = 2;
pub const NO_ARROW: u8 = 3;
/// The turn ahead was another's.
pub const OTHER_TURN: u8 = 4;
pub const NO_GAP: u8 = 5;
pub const MOVED: u8 = 6;
