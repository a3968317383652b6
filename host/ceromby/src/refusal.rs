//! Why a call was refused. The table below is the one place in Rust with the
//! numbers and their words; a test holds it to include/ceromby.h and to the
//! words beside the numbers in the proved crates.

use core::fmt;

macro_rules! refusals {
    ($($name:ident $variant:ident $number:literal $text:literal)*) => {
        /// Why a call was refused, by the papers' numbers.
        ///
        /// ```
        /// use ceromby::Refusal;
        ///
        /// let refusal = Refusal::TooClose;
        /// assert_eq!(refusal.number(), 34);
        /// assert_eq!(
        ///     refusal.to_string(),
        ///     "some canister of the tile differs by less than d in both a and b"
        /// );
        /// ```
        #[derive(Clone, Copy, PartialEq, Eq, Hash, Debug)]
        #[non_exhaustive]
        pub enum Refusal {
            $(
                #[doc = concat!($number, ": ", $text, ".")]
                $variant,
            )*
            /// A number that this binding doesn't know: the archive is of
            /// another version ([`crate::version`]).
            Unknown(u8),
        }

        impl Refusal {
            /// All that the papers name, by rising number.
            pub const ALL: &'static [Refusal] = &[$(Refusal::$variant),*];

            /// The refusal of a number; none for 0, which is accepted.
            pub const fn of(number: u8) -> Option<Refusal> {
                match number {
                    0 => None,
                    $($number => Some(Refusal::$variant),)*
                    other => Some(Refusal::Unknown(other)),
                }
            }

            /// The papers' number, as C gets it.
            pub const fn number(self) -> u8 {
                match self {
                    $(Refusal::$variant => $number,)*
                    Refusal::Unknown(number) => number,
                }
            }

            /// The papers' words, as `ceromby_refusal_text` gives them in C.
            pub const fn text(self) -> &'static str {
                match self {
                    $(Refusal::$variant => $text,)*
                    Refusal::Unknown(_) => "unknown",
                }
            }
        }

        /// The numbers by the names that they have in C.
        pub mod numbers {
            /// Not refused.
            pub const ACCEPTED: u8 = 0;
            $(
                #[doc = concat!($text, ".")]
                pub const $name: u8 = $number;
            )*
        }
    };
}

refusals! {
    GRID Grid 1 "W, H or C outside its range"
    SETS Sets 2 "hopper not on the floor, or a fill bit for the hopper or for no tile, or not one to four hoppers"
    MEASURE Measure 3 "a measure breaks the rules"
    NO_TILE NoTile 4 "tile not on the floor"
    NOT_A_SOURCE NotASource 5 "booking on a tile outside the fill set"
    NUMBER_ZERO NumberZero 6 "canister number 0"
    OUTSIDE Outside 7 "a or b above U - l"
    STOP_OF_HOPPER StopOfHopper 8 "stop of the hopper"
    IMAGE_ENDS ImageEnds 9 "image ends within a record or with its end record missing, or has bytes after its end record"
    OTHER_KIND OtherKind 10 "record of another kind than the one due"
    RECORD_SHAPE RecordShape 11 "wrong record length, or a fixed byte wrong"
    IMAGE_MALFORMED ImageMalformed 12 "image complete, floor not well formed"
    SHORT_BUFFER ShortBuffer 13 "buffer shorter than the image to write"
    MALFORMED Malformed 30 "the floor handed in isn't well formed, or the record, plan or barge isn't sound"
    STOPPED Stopped 31 "booking on a stopped tile, or stop of a stopped one"
    RUNNING Running 32 "repair of a running tile"
    NUMBER_USED NumberUsed 33 "canister number not above the last booked"
    TOO_CLOSE TooClose 34 "some canister of the tile differs by less than d in both a and b"
    NO_PLACE NoPlace 40 "no place on the tile"
    COUNT_TOO_HIGH CountTooHigh 41 "a count above 4"
    LIST_TOO_LONG ListTooLong 42 "more than 64 entries"
    SHORT_PAGE ShortPage 43 "buffer shorter than the page"
    BAD_NAME BadName 44 "bad name"
    NAME_NOT_HELD NameNotHeld 45 "name not held"
    LAYOUTS_FULL LayoutsFull 46 "eight other names held"
    BAD_LABEL BadLabel 47 "an entry's label repeated or outside 1 to 64, or a predecessor absent or not lower"
    NOT_RELEASED NotReleased 48 "the label asked for not waiting or a predecessor undelivered"
    NO_FLOOR NoFloor 49 "floor number not 0 to 3"
    OVERLOADED Overloaded 50 "the total is at or above the allowance"
}

/// The papers' words, [`Refusal::text`].
impl fmt::Display for Refusal {
    fn fmt(&self, f: &mut fmt::Formatter) -> fmt::Result {
        f.pad(self.text())
    }
}

impl core::error::Error for Refusal {}

/// Nothing for 0, else the refusal.
#[inline]
pub(crate) fn accepted(number: u8) -> Result<(), Refusal> {
    match number {
        0 => Ok(()),
        _ => refused(number),
    }
}

/// Apart, so that an accepted call does no more than look at its number.
#[cold]
fn refused(number: u8) -> Result<(), Refusal> {
    Refusal::of(number).map_or(Ok(()), Err)
}
