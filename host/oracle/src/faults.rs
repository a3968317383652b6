//! Deliberate faults, to see that the comparison runs find them. Without the
//! feature `faults` none can be switched on.

#[cfg(feature = "faults")]
use core::sync::atomic::{AtomicU8, Ordering};

macro_rules! faults {
    ($($fault:ident $name:literal $text:literal)*) => {
        #[derive(Clone, Copy, PartialEq, Eq, Debug)]
        pub enum Fault {
            $($fault),*
        }

        #[cfg(feature = "faults")]
        impl Fault {
            pub const ALL: &'static [Fault] = &[$(Fault::$fault),*];

            pub fn name(self) -> &'static str {
                match self {
                    $(Fault::$fault => $name),*
                }
            }

            pub fn text(self) -> &'static str {
                match self {
                    $(Fault::$fault => $text),*
                }
            }
        }
    };
}

faults! {
    LaterSide "later-side" "ties between neighbours go to the later side"
    ArrowForgotten "arrow-forgotten" "a tie turns the arrow by the order of ties"
    ArrowStuck "arrow-stuck" "the arrow is kept though another neighbour is nearer"
    KeepByNew "keep-by-new" "whether the arrow is kept goes by distances of this round"
    NoCut "no-cut" "a distance isn't cut at C"
    RouteInPlace "route-in-place" "route reads distances of this round"
    OldArrow "old-arrow" "a side wants by the arrow before the round"
    TurnNotPassed "turn-not-passed" "the turn stays with the side granted"
    StoredTurnStays "stored-turn-stays" "without a gap the turn before the round stays"
    TurnFromWest "turn-from-west" "a turn that no longer wants is sought from the west"
    HopperTurnDropped "hopper-turn-dropped" "the hopper forgets its turn"
    PassedTurn "passed-turn" "the turn ahead is judged after it passed on"
    BestCanister "best-canister" "the least that a canister lacks is reported"
    GapBeforeTurn "gap-before-turn" "reason 5 before reason 4"
    EmptyAfter "empty-after" "whether a tile is empty is judged after the round"
    MissingBeside "missing-beside" "millimetres are reported beside reason 4 too"
    GapShort "gap-short" "the gap is one short of d"
    CrossAtTouch "cross-at-touch" "a canister crosses east or north when it touches the border"
    LandingShort "landing-short" "a canister lands one short of U - l"
    DeliveredTwice "delivered-twice" "a delivery counts twice"
    NumberBeforeStopped "number-before-stopped" "33 before 31"
    BookTooStrict "book-too-strict" "34 at a spacing of exactly d"
    TileCut "tile-cut" "the tile argument is cut to eight bits"
    StopClears "stop-clears" "stop takes the canisters off"
    RepairRoutes "repair-routes" "repair gives a way at once"
    MeasureBeforeSets "measure-before-sets" "3 before 2"
    SpacingWraps "spacing-wraps" "l + r in sixteen bits"
    UnusedUnchecked "unused-unchecked" "unused places of a tile may hold anything"
    ZeroHeld "zero-held" "a canister on the floor may have number 0"
    TurnUnchecked "turn-unchecked" "a turn may face no tile"
    RepeatAccepted "repeat-accepted" "a number may stand on two tiles"
    SumWraps "sum-wraps" "delivered + those on the floor in 32 bits"
    BookedAboveLast "booked-above-last" "booked may pass the last number"
    KindAsShape "kind-as-shape" "11 for 10"
    KindBeforeEnd "kind-before-end" "10 before 9 in a record"
    RunningEarly "running-early" "running 2 is refused as soon as it is read"
    LeftoverLast "leftover-last" "12 before bytes left over"
    PartialLoad "partial-load" "a refused load gives the part it read"
    ExactBuffer "exact-buffer" "13 for a buffer of exactly the image's length"
    TailTouched "tail-touched" "writing clears the bytes after the image"
    CountersSwapped "counters-swapped" "the counters of two hoppers are swapped"
    OnlyLowest "only-lowest" "only the lowest hopper delivers"
    OneBit "one-bit" "a 28-byte record with one bit is accepted"
    FillLowest "fill-lowest" "the fill bit is tested against the lowest hopper alone"
    StopOther "stop-other" "8 for the lowest hopper alone"
    UnusedCounter "unused-counter" "a counter of no hopper may hold anything"
    EmptySetTested "empty-set-tested" "the hopper byte is tested for an empty set too"
    HopperByteLate "hopper-byte-late" "the hopper byte is tested after 1, 2 and 3"
    RecallCounters "recall-counters" "recall sets the last number back"
    RecallRestarts "recall-restarts" "recall starts tiles anew that ran"
    NinthReplaces "ninth-replaces" "a ninth layout replaces the last"
    FullRefuses "full-refuses" "46 for a held name too, with eight held"
    ForgetHole "forget-hole" "forgetting leaves a hole"
    NotHeldFirst "not-held-first" "45 before 44"
    NameCut "name-cut" "a name given as text is cut to eight letters"
    FillingUnchecked "filling-unchecked" "a letter may stand after the zero filling began"
    UnsortedLayouts "unsorted-layouts" "names needn't rise"
    OneHopperRuns "one-hopper-runs" "a layout needs the lowest hopper alone"
    LayoutBeyond "layout-beyond" "a layout may have a bit for no tile"
    NinthRecord "ninth-record" "a ninth record of kind 5 is passed over"
    ZeroRecord "zero-record" "a record of kind 5 may be all zero"
    EmptyRefused "empty-refused" "an empty image is still 9"
    OneByteLoads "one-byte-loads" "one byte loads the standard floor too"
    StandardExchanged "standard-exchanged" "the standard floor has hopper 4 and fill tile 10"
    LowestAFirst "lowest-a-first" "a place is sought by the lowest a, then the lowest b"
    PlaceTooClose "place-too-close" "a place at a spacing of d - 1 is taken"
    LastRowLeftOut "last-row-left-out" "40 though the row b = U - l has room"
    SearchShort "search-short" "a place is sought up to U - l - 1 alone"
    TooCloseAnywhere "too-close-anywhere" "34 in place of 40"
    NoPlaceBeforeUsed "no-place-before-used" "40 before 33"
    OtherPlaceTold "other-place-told" "the place told isn't the one taken"
    RefusedPlace "refused-place" "a refused booking without a place tells one"
    ListStops "list-stops" "a list ends at its first refused entry"
    SixtyFourRefused "sixty-four-refused" "42 for 64 entries"
    MalformedBeforeLong "malformed-before-long" "30 before 42"
    ListMalformed "list-malformed" "a list on a malformed floor is refused by 30 itself"
    AnswersTurned "answers-turned" "the answers of a list stand in the other order"
    RefusedWritten "refused-written" "refused entries alone receive an answer"
    FirstFloorJudges "first-floor-judges" "every entry is judged on the floor before the list"
    LongListWritten "long-list-written" "the entries of a list that is 42 are written"
    ShortWindow "short-window" "a window has 255 rounds"
    LastRoundLost "last-round-lost" "the rate leaves out the closing round's count"
    LeastUnset "least-unset" "the first close leaves the least rate at 0"
    NegativeZero "negative-zero" "a rate may be negative zero"
    CountFirst "count-first" "41 before 30"
    CountCut "count-cut" "a count is cut to eight bits"
    FlagTwo "flag-two" "a closed byte of 2 means that no window has closed"
    FlagNormal "flag-normal" "an open round makes 1 of a closed byte of 2"
    RefusedEmptied "refused-emptied" "a refusal empties the open window"
    NanQuieted "nan-quieted" "a refused record's signalling NaN comes back quiet"
    SouthFirst "south-first" "the page begins with the south row"
    DistanceLeft "distance-left" "a distance below 10 is left-aligned"
    StoppedDashed "stopped-dashed" "a stopped tile's distance is -- on the page"
    PageByteMore "page-byte-more" "a page takes one byte more"
    PageBegun "page-begun" "a buffer that is short gets as much of the page as it holds"
    ShortPageFirst "short-page-first" "43 before 30"
    LettersSwapped "letters-swapped" "S and N are exchanged on the page"
    ExactPage "exact-page" "43 for a buffer of exactly the page's length"
    OfferHighest "offer-highest" "a plan offers the highest label that can go"
    OfferFirst "offer-first" "a plan offers the first entry that can go"
    BookedSuffices "booked-suffices" "a booked predecessor counts as delivered"
    MarkedInOrder "marked-in-order" "a report marks as many booked entries as it lists, by their order"
    ReleaseUnready "release-unready" "a label may be released before its predecessors were delivered"
    NumberReused "number-reused" "a release leaves the last number, so that the next takes the same"
    LabelsFirst "labels-first" "47 before 30"
    FillingListed "filling-listed" "the zeros that fill a report are listed too"
    AbsentReleased "absent-released" "for a label that the plan hasn't its first entry is released"
    FirstHopperAlone "first-hopper-alone" "only what the first hopper took in is marked"
    FirstCountAlone "first-count-alone" "a count above 4 is 30 for the first hopper alone"
    StageWaits "stage-waits" "a stage byte of 3 or more means that the entry waits"
    PastCount "past-count" "entries past the count are judged too"
    DeliveredHolds "delivered-holds" "a delivered entry's number may not be held by a booked one"
    NumbersUnchecked "numbers-unchecked" "a booked number may be above the last booked"
    ZeroReleased "zero-released" "a booked number may be 0 at release"
    NamesItself "names-itself" "an entry may be its own predecessor"
    EqualRefused "equal-refused" "47 for two equal predecessors"
    LabelCut "label-cut" "the label asked for is cut to eight bits"
    NoNumberFirst "no-number-first" "33 before 4 where no number is left"
    NumberCleared "number-cleared" "a report clears the number of what it marks"
    AllowanceFirst "allowance-first" "50 before 34 and 40"
    FloorsTotal "floors-total" "the canisters of the named floor alone are held against the allowance"
    OtherFloorMoves "other-floor-moves" "a round moves the next floor too"
    FloorFirst "floor-first" "49 before 30"
    AllowanceLate "allowance-late" "50 one canister later"
    NamedFloorAlone "named-floor-alone" "30 by the named floor alone"
    NoAllowance "no-allowance" "an allowance of 0 is accepted"
    LargerAllowance "larger-allowance" "an allowance of 4,033 is accepted"
    FloorCut "floor-cut" "the floor's number is cut to eight bits"
    OverloadRefused "overload-refused" "30 for a total above the allowance"
    DeliveredAboard "delivered-aboard" "a delivery doesn't lower the total"
    AnywhereFree "anywhere-free" "a booking without a place is never 50"
    PlaceBeyond "place-beyond" "a booking that is 50 tells its place"
    StopLoaded "stop-loaded" "a stop may be 50"
    BoundAllTiles "bound-all-tiles" "the bound has C in place of C - 1"
    BoundNoStart "bound-no-start" "the bound is (C - 1) x K x M"
    CrossingShort "crossing-short" "M lacks its + 1"
    WholeWidth "whole-width" "M by U in place of U - l"
    IdleBound "idle-bound" "the bound is 0 where K is 0"
    BoundCut "bound-cut" "the bound in sixteen bits"
    AllConnected "all-connected" "K counts all canisters"
    TilesConnected "tiles-connected" "K counts tiles in place of canisters"
    StoppedConnected "stopped-connected" "the canisters on stopped tiles count as connected"
    StoppedLeftOut "stopped-left-out" "the canisters on stopped tiles aren't counted"
    StopLeadsOn "stop-leads-on" "a live path may lead over stopped tiles"
    LowestHopperEnds "lowest-hopper-ends" "a live path ends at the lowest hopper alone"
    AcrossColumns "across-columns" "a live path may go from a column's north end to the next one's south end"
    DistanceConnects "distance-connects" "a tile with a distance has a live path"
    RefusedCounted "refused-counted" "a refused bound tells the canisters"
}

#[cfg(feature = "faults")]
static SWITCH: AtomicU8 = AtomicU8::new(0);

/// Switches one fault on, or all off.
#[cfg(feature = "faults")]
pub fn switch(fault: Option<Fault>) {
    SWITCH.store(fault.map_or(0, |fault| fault as u8 + 1), Ordering::Relaxed);
}

#[cfg(feature = "faults")]
pub(crate) fn on(fault: Fault) -> bool {
    SWITCH.load(Ordering::Relaxed) == fault as u8 + 1
}

#[cfg(not(feature = "faults"))]
pub(crate) const fn on(_: Fault) -> bool {
    false
}
