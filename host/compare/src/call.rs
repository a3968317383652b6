//! The calls, made by both implementations and compared.

use std::hint::black_box;
use std::panic::{self, catch_unwind, AssertUnwindSafe};
use std::sync::atomic::{AtomicBool, Ordering};

use ::ceromby::raw as ceromby;
use oracle::{
    Answer, Booking, Bounded, Canister, FeedAnswer, Floor, OfferAnswer, PlaceAnswer, Plan,
    PlanAnswer, Reading, ReleaseAnswer, Report, RoundAnswer, Settings, Throughput, Tile,
    WriteAnswer,
};

use crate::barges::{self, Given, Named};
use crate::layouts::{self, Name};
use crate::{book_lists, bounds, page, places, plans, reasons, throughput};

#[derive(Clone, PartialEq, Debug)]
pub enum Call {
    Fresh {
        settings: Settings,
    },
    Book {
        tile: u32,
        canister: Canister,
    },
    Stop {
        tile: u32,
    },
    Repair {
        tile: u32,
    },
    Round,
    Read {
        tile: u32,
    },
    Write {
        size: usize,
    },
    Load {
        bytes: Vec<u8>,
    },
    Keep {
        name: Name,
    },
    Forget {
        name: Name,
    },
    Recall {
        name: Name,
    },
    BookAnywhere {
        tile: u32,
        number: u32,
    },
    BookList {
        list: Vec<Booking>,
    },
    Feed {
        record: Throughput,
        count: u32,
    },
    Page {
        size: usize,
    },
    Bound,
    Offer {
        plan: Box<Plan>,
    },
    Release {
        plan: Box<Plan>,
        label: u32,
    },
    Report {
        plan: Box<Plan>,
        report: Box<Report>,
    },
    Barge(Box<Named>),
}

pub const NAMES: [&str; 24] = [
    "fresh",
    "book",
    "stop",
    "repair",
    "round",
    "read",
    "write",
    "load",
    "keep",
    "forget",
    "recall",
    "book anywhere",
    "book list",
    "feed",
    "page",
    "bound",
    "plan offer",
    "plan release",
    "plan report",
    BARGE_NAMES[0],
    BARGE_NAMES[1],
    BARGE_NAMES[2],
    BARGE_NAMES[3],
    BARGE_NAMES[4],
];

/// The calls on a floor of a barge.
pub const BARGE_NAMES: [&str; 5] = [
    "barge book",
    "barge anywhere",
    "barge stop",
    "barge repair",
    "barge round",
];

pub const BOOK: usize = 1;
pub const STOP: usize = 2;
pub const REPAIR: usize = 3;
pub const KEEP: usize = 8;
pub const FORGET: usize = 9;
pub const RECALL: usize = 10;
pub const BOOK_ANYWHERE: usize = 11;
pub const BOUND: usize = 15;
pub const OFFER: usize = 16;
pub const RELEASE: usize = 17;
pub const REPORT: usize = 18;
/// The first of the calls on a barge.
pub const BARGE: usize = 19;

impl Call {
    /// Its place among `NAMES`.
    pub fn kind(&self) -> usize {
        match self {
            Call::Fresh { .. } => 0,
            Call::Book { .. } => BOOK,
            Call::Stop { .. } => STOP,
            Call::Repair { .. } => REPAIR,
            Call::Round => 4,
            Call::Read { .. } => 5,
            Call::Write { .. } => 6,
            Call::Load { .. } => 7,
            Call::Keep { .. } => KEEP,
            Call::Forget { .. } => FORGET,
            Call::Recall { .. } => RECALL,
            Call::BookAnywhere { .. } => BOOK_ANYWHERE,
            Call::BookList { .. } => 12,
            Call::Feed { .. } => 13,
            Call::Page { .. } => 14,
            Call::Bound => BOUND,
            Call::Offer { .. } => OFFER,
            Call::Release { .. } => RELEASE,
            Call::Report { .. } => REPORT,
            Call::Barge(named) => BARGE + named.sort(),
        }
    }

    pub fn name(&self) -> &'static str {
        NAMES[self.kind()]
    }

    /// Its place among the calls about layouts, and the name of the layout.
    pub fn layout(&self) -> Option<(usize, &Name)> {
        match self {
            Call::Keep { name } | Call::Forget { name } | Call::Recall { name } => {
                Some((self.kind() - KEEP, name))
            }
            _ => None,
        }
    }

    /// Whether it takes a plan, which may be 30 by itself.
    pub fn takes_a_plan(&self) -> bool {
        (OFFER..=REPORT).contains(&self.kind())
    }

    /// The tile that it names.
    pub fn tile(&self) -> Option<u32> {
        match self {
            Call::Book { tile, .. }
            | Call::BookAnywhere { tile, .. }
            | Call::Stop { tile }
            | Call::Repair { tile }
            | Call::Read { tile } => Some(*tile),
            _ => None,
        }
    }
}

/// A name as the binding takes it.
impl From<&Name> for ceromby::Name {
    fn from(name: &Name) -> ceromby::Name {
        match name {
            Name::Letters(letters) => ceromby::Name { letters: *letters },
            Name::Text(text) => text.as_str().into(),
        }
    }
}

/// A name as the oracle takes it.
fn letters(name: &Name) -> [u8; 8] {
    match name {
        Name::Letters(letters) => *letters,
        Name::Text(text) => oracle::name(text),
    }
}

impl From<oracle::random::Call> for Call {
    fn from(call: oracle::random::Call) -> Call {
        match call {
            oracle::random::Call::Book { tile, canister } => Call::Book { tile, canister },
            oracle::random::Call::BookAnywhere { tile, number } => {
                Call::BookAnywhere { tile, number }
            }
            oracle::random::Call::Stop { tile } => Call::Stop { tile },
            oracle::random::Call::Repair { tile } => Call::Repair { tile },
            oracle::random::Call::Round => Call::Round,
            oracle::random::Call::Keep { name } => Call::Keep {
                name: Name::Letters(name),
            },
            oracle::random::Call::Forget { name } => Call::Forget {
                name: Name::Letters(name),
            },
            oracle::random::Call::Recall { name } => Call::Recall {
                name: Name::Letters(name),
            },
        }
    }
}

/// All that a call gives, bytes of the buffer included.
#[allow(clippy::large_enum_variant)]
#[derive(PartialEq)]
pub enum Outcome {
    Answer(Answer),
    Placed(PlaceAnswer),
    Listed(Answer, Vec<Booking>),
    Round(RoundAnswer),
    Reading(Reading),
    Written(WriteAnswer, Vec<u8>),
    Fed(FeedAnswer),
    Bounded(Bounded),
    Offered(OfferAnswer),
    Released(Box<ReleaseAnswer>),
    Planned(Box<PlanAnswer>),
    OnBarge(Box<Given>),
}

impl Outcome {
    pub fn refusal(&self) -> u8 {
        match self {
            Outcome::Answer(answer) | Outcome::Listed(answer, _) => answer.refusal,
            Outcome::Placed(answer) => answer.refusal,
            Outcome::Round(answer) => answer.refusal,
            Outcome::Reading(answer) => answer.refusal,
            Outcome::Written(answer, _) => answer.refusal,
            Outcome::Fed(answer) => answer.fed.err().unwrap_or(0),
            Outcome::Bounded(answer) => answer.refusal,
            Outcome::Offered(answer) => answer.refusal,
            Outcome::Released(answer) => answer.refusal,
            Outcome::Planned(answer) => answer.refusal,
            Outcome::OnBarge(given) => given.refusal,
        }
    }

    /// The call's refusal, or the answers of the entries of an accepted list.
    pub fn answers(&self) -> impl Iterator<Item = u8> + '_ {
        let (own, list) = match self {
            Outcome::Listed(answer, list) if answer.refusal == 0 => (None, &list[..]),
            _ => (Some(self.refusal()), &[][..]),
        };
        own.into_iter().chain(list.iter().map(|entry| entry.answer))
    }

    /// The image that was written; none if that was refused.
    pub fn image(&self) -> Option<&[u8]> {
        match self {
            Outcome::Written(answer, buffer) if answer.refusal == 0 => {
                buffer.get(..answer.length as usize)
            }
            _ => None,
        }
    }

    /// The place that a booking without one tells, (0, 0) for other calls.
    pub fn place(&self) -> (u16, u16) {
        match self {
            Outcome::Placed(answer) => (answer.a, answer.b),
            _ => (0, 0),
        }
    }

    /// A round's report, zeros for other calls.
    pub fn report(&self) -> Report {
        match self {
            Outcome::Round(answer) => answer.report,
            _ => Report::ZERO,
        }
    }

    /// The floor that the next call gets.
    pub fn floor_after(&self, call: &Call, before: &Floor) -> Floor {
        match (self, call) {
            (Outcome::Answer(answer), Call::Fresh { .. } | Call::Load { .. })
                if answer.refusal != 0 =>
            {
                *before
            }
            (Outcome::Answer(answer) | Outcome::Listed(answer, _), _) => answer.floor,
            (Outcome::Placed(answer), _) => answer.floor,
            (Outcome::Round(answer), _) => answer.floor,
            (Outcome::Released(answer), _) => answer.floor,
            _ => *before,
        }
    }
}

/// Bytes in a buffer before it is written.
fn blank(size: usize) -> Vec<u8> {
    (0..size).map(|at| (at * 7 + 90) as u8).collect()
}

/// A load of bytes that must be the same afterwards.
fn loaded(bytes: &[u8]) -> ceromby::Answer {
    let handed = black_box(bytes.to_vec());
    let answer = ceromby::load(&handed);
    assert!(black_box(&handed) == bytes, "load changed its bytes");
    answer
}

/// A write as C gets it, so that the length beside a refusal is compared too.
/// The binding's own answer must be the same, without that length.
fn written(floor: &ceromby::Floor, size: usize) -> (ceromby::Written, Vec<u8>) {
    let (mut buffer, mut other) = (blank(size), blank(size));
    let answer = ceromby::as_in_c::write(floor, &mut buffer);
    let due = match answer.refusal {
        0 => Ok(answer.length as usize),
        refusal => Err(refusal),
    };
    let same = ceromby::write(floor, &mut other) == due && buffer == other;
    assert!(same, "the binding gives another answer to a write");
    (answer, buffer)
}

/// A list of bookings with an entry before and one after it that must stay.
fn listed(floor: &ceromby::Floor, list: &[Booking]) -> (ceromby::Answer, Vec<Booking>) {
    let edge = Booking {
        tile: 0,
        canister: Canister::ZERO,
        answer: 99,
    };
    let framed = [&[edge], list, &[edge]].concat();
    let mut handed: Vec<_> = framed.iter().map(convert::to_booking).collect();
    let answer = ceromby::book_list(floor, &mut handed[1..=list.len()]);
    let mut after: Vec<_> = handed.iter().map(convert::from_booking).collect();
    let edges = [after.pop(), Some(after.remove(0))];
    assert!(edges == [Some(edge); 2], "a list is written beyond its end");
    (answer, after)
}

pub fn by_library(floor: &Floor, call: &Call) -> Outcome {
    let theirs = || convert::to_floor(floor);
    let answer = match call {
        Call::Fresh { settings } => ceromby::fresh(convert::to_settings(settings)),
        Call::Book { tile, canister } => {
            ceromby::book(&theirs(), *tile, convert::to_canister(canister))
        }
        Call::BookAnywhere { tile, number } => {
            let answer = ceromby::book_anywhere(&theirs(), *tile, *number);
            return Outcome::Placed(convert::from_placed(&answer));
        }
        Call::BookList { list } => {
            let (answer, list) = listed(&theirs(), list);
            return Outcome::Listed(convert::from_answer(&answer), list);
        }
        Call::Stop { tile } => ceromby::stop(&theirs(), *tile),
        Call::Repair { tile } => ceromby::repair(&theirs(), *tile),
        Call::Round => {
            return Outcome::Round(convert::from_rounded(&ceromby::round(&theirs())));
        }
        Call::Read { tile } => {
            return Outcome::Reading(convert::from_reading(&ceromby::read(&theirs(), *tile)));
        }
        Call::Write { size } => {
            let (answer, buffer) = written(&theirs(), *size);
            return Outcome::Written(convert::from_written(&answer), buffer);
        }
        Call::Load { bytes } => loaded(bytes),
        Call::Keep { name } => ceromby::keep(&theirs(), name),
        Call::Forget { name } => ceromby::forget(&theirs(), name),
        Call::Recall { name } => ceromby::recall(&theirs(), name),
        Call::Feed { record, count } => {
            return Outcome::Fed(throughput::by_library(record, *count));
        }
        Call::Page { size } => {
            let (mut buffer, mut other) = (blank(*size), blank(*size));
            let answer = page::by_library(&theirs(), &mut buffer, &mut other);
            return Outcome::Written(convert::from_written(&answer), buffer);
        }
        Call::Bound => {
            return Outcome::Bounded(convert::from_bounded(&ceromby::bound(&theirs())));
        }
        Call::Offer { plan } => return Outcome::Offered(plans::offer(plan)),
        Call::Release { plan, label } => {
            return Outcome::Released(plans::release(plan, floor, *label).into());
        }
        Call::Report { plan, report } => {
            return Outcome::Planned(plans::report(plan, report).into());
        }
        Call::Barge(named) => return Outcome::OnBarge(named.by_library().into()),
    };
    Outcome::Answer(convert::from_answer(&answer))
}

fn by_oracle(floor: &Floor, call: &Call) -> Outcome {
    Outcome::Answer(match call {
        Call::Fresh { settings } => oracle::fresh(*settings),
        Call::Book { tile, canister } => oracle::book(floor, *tile, *canister),
        Call::BookAnywhere { tile, number } => {
            return Outcome::Placed(oracle::book_anywhere(floor, *tile, *number));
        }
        Call::BookList { list } => {
            let mut list = list.clone();
            let answer = oracle::book_list(floor, &mut list);
            return Outcome::Listed(answer, list);
        }
        Call::Stop { tile } => oracle::stop(floor, *tile),
        Call::Repair { tile } => oracle::repair(floor, *tile),
        Call::Round => return Outcome::Round(oracle::round(floor)),
        Call::Read { tile } => return Outcome::Reading(oracle::read(floor, *tile)),
        Call::Write { size } => {
            let mut buffer = blank(*size);
            let answer = oracle::write(floor, &mut buffer);
            return Outcome::Written(answer, buffer);
        }
        Call::Load { bytes } => oracle::load(bytes),
        Call::Keep { name } => oracle::keep(floor, letters(name)),
        Call::Forget { name } => oracle::forget(floor, letters(name)),
        Call::Recall { name } => oracle::recall(floor, letters(name)),
        Call::Feed { record, count } => return Outcome::Fed(oracle::feed(record, *count)),
        Call::Page { size } => {
            let mut buffer = blank(*size);
            let answer = oracle::page(floor, &mut buffer);
            return Outcome::Written(answer, buffer);
        }
        Call::Bound => return Outcome::Bounded(oracle::bound(floor)),
        Call::Offer { plan } => return Outcome::Offered(oracle::offer(plan)),
        Call::Release { plan, label } => {
            return Outcome::Released(oracle::release(plan, floor, *label).into());
        }
        Call::Report { plan, report } => {
            return Outcome::Planned(oracle::report(plan, report).into());
        }
        Call::Barge(named) => return Outcome::OnBarge(named.by_oracle().into()),
    })
}

/// What went wrong.
#[derive(Clone, Debug)]
pub struct Trouble {
    /// The call, or the promise that failed.
    pub at: &'static str,
    pub text: String,
    /// The answers of the library and of the oracle.
    pub refusals: Option<(u8, u8)>,
}

impl Trouble {
    pub fn promise(at: &'static str, text: String) -> Trouble {
        Trouble {
            at,
            text,
            refusals: None,
        }
    }

    /// Whether two troubles may be the same one. A broken promise may show
    /// as another one in a smaller case.
    pub fn like(&self, other: &Trouble) -> bool {
        let promise = self.refusals.is_none();
        self.refusals == other.refusals && (promise || self.at == other.at)
    }
}

/// Set while the oracle works: its panics are told as trouble.
static QUIET: AtomicBool = AtomicBool::new(false);

pub fn hush_the_oracle() {
    let usual = panic::take_hook();
    panic::set_hook(Box::new(move |info| {
        if !QUIET.load(Ordering::Relaxed) {
            usual(info);
        }
    }));
}

/// Makes a call with both, compares all they give and sees to refusals.
pub fn both(floor: &Floor, call: &Call) -> Result<Outcome, Trouble> {
    let library = by_library(floor, call);
    QUIET.store(true, Ordering::Relaxed);
    let oracle = catch_unwind(AssertUnwindSafe(|| by_oracle(floor, call)));
    QUIET.store(false, Ordering::Relaxed);
    let Ok(oracle) = oracle else {
        return Err(Trouble {
            at: call.name(),
            text: "the oracle panics".into(),
            refusals: Some((library.refusal(), 255)),
        });
    };
    if library != oracle {
        return Err(Trouble {
            at: call.name(),
            text: describe(&library, &oracle),
            refusals: Some((library.refusal(), oracle.refusal())),
        });
    }
    if library.refusal() != 0 && !keeps_all(floor, call, &library) {
        let text = format!("{} {} changes something", call.name(), library.refusal());
        return Err(Trouble::promise("refusal", text));
    }
    if library.refusal() == 0 && !leaves_rest(floor, call, &library) {
        let text = format!("{} gives or writes something else", call.name());
        return Err(Trouble::promise("acceptance", text));
    }
    match (&library, call) {
        (Outcome::Round(answer), _) if answer.refusal == 0 => reasons::check(floor, answer)?,
        (Outcome::Placed(answer), Call::BookAnywhere { tile, number }) => {
            places::check(floor, *tile, *number, answer)?;
        }
        (Outcome::Listed(answer, list), Call::BookList { list: handed }) => {
            book_lists::check(floor, handed, answer, list)?;
        }
        (Outcome::Fed(answer), Call::Feed { record, count }) => {
            throughput::check(record, *count, answer)?;
        }
        (Outcome::Written(answer, buffer), Call::Page { .. }) => {
            page::check(floor, answer, buffer)?;
        }
        (Outcome::Bounded(answer), _) => bounds::check(floor, answer)?,
        (Outcome::OnBarge(given), Call::Barge(named)) => barges::check(named, given)?,
        _ if call.takes_a_plan() => plans::check(floor, call, &library)?,
        _ => layouts::check(floor, call, &library)?,
    }
    Ok(library)
}

/// A refusal gives zeros, the same floor and untouched buffers.
fn keeps_all(floor: &Floor, call: &Call, outcome: &Outcome) -> bool {
    match (outcome, call) {
        (Outcome::Answer(answer), Call::Fresh { .. } | Call::Load { .. }) => {
            answer.floor == Floor::ZERO
        }
        (Outcome::Answer(answer), _) => answer.floor == *floor,
        (Outcome::Listed(answer, list), _) => {
            answer.floor == *floor
                && matches!(call, Call::BookList { list: handed } if handed == list)
        }
        (Outcome::Placed(answer), _) => answer.floor == *floor && (answer.a, answer.b) == (0, 0),
        (Outcome::Round(answer), _) => answer.floor == *floor && answer.report == Report::ZERO,
        (Outcome::Reading(answer), _) => {
            answer.tile == Tile::ZERO && answer.members == [Canister::ZERO; 16]
        }
        (Outcome::Written(answer, buffer), _) => {
            answer.length == 0 && *buffer == blank(buffer.len())
        }
        (Outcome::Fed(answer), Call::Feed { record, .. }) => answer.throughput == *record,
        (Outcome::Bounded(answer), _) => {
            (answer.rounds, answer.connected, answer.unconnected) == (0, 0, 0)
        }
        (Outcome::Offered(answer), _) => answer.label == 0,
        (Outcome::Released(answer), Call::Release { plan, .. }) => {
            let told = (answer.number, answer.a, answer.b);
            answer.floor == *floor && answer.plan == **plan && told == (0, 0, 0)
        }
        (Outcome::Planned(answer), Call::Report { plan, .. }) => answer.plan == **plan,
        (Outcome::OnBarge(given), Call::Barge(named)) => {
            given.barge == named.barge && given.place == (0, 0) && given.report == Report::ZERO
        }
        (Outcome::Fed(_) | Outcome::Released(_), _) => false,
        (Outcome::Planned(_) | Outcome::OnBarge(_), _) => false,
    }
}

/// Reading gives what the memory holds; writing leaves the bytes after the
/// image or page, which is never empty.
fn leaves_rest(floor: &Floor, call: &Call, outcome: &Outcome) -> bool {
    match (outcome, call) {
        (Outcome::Reading(answer), Call::Read { tile }) => {
            let tile = *tile as usize;
            tile < floor.settings.tile_count()
                && answer.tile == floor.tiles[tile]
                && answer.members == floor.places(tile)
        }
        (Outcome::Written(answer, buffer), _) => {
            let length = answer.length as usize;
            (1..=buffer.len()).contains(&length)
                && buffer.get(length..) == blank(buffer.len()).get(length..)
        }
        _ => true,
    }
}

/// The first few fields that differ, the library's value first.
fn describe(library: &Outcome, oracle: &Outcome) -> String {
    let mut fields = Fields(Vec::new());
    fields.note("answer", &library.refusal(), &oracle.refusal());
    match (library, oracle) {
        (Outcome::Answer(one), Outcome::Answer(other)) => fields.floor(&one.floor, &other.floor),
        (Outcome::Listed(one, list), Outcome::Listed(other, others)) => {
            fields.each("entry", list, others);
            fields.floor(&one.floor, &other.floor);
        }
        (Outcome::Placed(one), Outcome::Placed(other)) => {
            fields.note("place told", &(one.a, one.b), &(other.a, other.b));
            fields.floor(&one.floor, &other.floor);
        }
        (Outcome::Round(one), Outcome::Round(other)) => {
            fields.report(&one.report, &other.report);
            fields.floor(&one.floor, &other.floor);
        }
        (Outcome::OnBarge(one), Outcome::OnBarge(other)) => {
            fields.note("place told", &one.place, &other.place);
            fields.report(&one.report, &other.report);
            let (ones, others) = (&one.barge, &other.barge);
            fields.note("allowance", &ones.allowance, &others.allowance);
            for (one, other) in ones.floors.iter().zip(&others.floors) {
                fields.floor(one, other);
            }
        }
        (Outcome::Reading(one), Outcome::Reading(other)) => {
            fields.note("tile", &one.tile, &other.tile);
            fields.each("member", &one.members, &other.members);
        }
        (Outcome::Written(one, bytes), Outcome::Written(other, others)) => {
            fields.note("length", &one.length, &other.length);
            fields.each("byte", bytes, others);
        }
        (Outcome::Fed(one), Outcome::Fed(other)) => {
            fields.note("fed", &one.fed, &other.fed);
            fields.note("record", &one.throughput, &other.throughput);
            let bits = |answer: &FeedAnswer| answer.throughput.rate_bits();
            fields.each("bits of rate", &bits(one), &bits(other));
        }
        (Outcome::Bounded(one), Outcome::Bounded(other)) => {
            fields.note("rounds", &one.rounds, &other.rounds);
            fields.note("connected", &one.connected, &other.connected);
            fields.note("unconnected", &one.unconnected, &other.unconnected);
        }
        (Outcome::Offered(one), Outcome::Offered(other)) => {
            fields.note("label", &one.label, &other.label);
        }
        (Outcome::Released(one), Outcome::Released(other)) => {
            fields.note("number", &one.number, &other.number);
            fields.note("place told", &(one.a, one.b), &(other.a, other.b));
            fields.plan(&one.plan, &other.plan);
            fields.floor(&one.floor, &other.floor);
        }
        (Outcome::Planned(one), Outcome::Planned(other)) => fields.plan(&one.plan, &other.plan),
        _ => {}
    }
    let more = fields.0.len().saturating_sub(4);
    fields.0.truncate(4);
    if more > 0 {
        fields.0.push(format!("{more} more"));
    }
    fields.0.join("; ")
}

struct Fields(Vec<String>);

impl Fields {
    fn note<T: PartialEq + std::fmt::Debug>(&mut self, name: &str, one: &T, other: &T) {
        if one != other {
            self.0
                .push(format!("{name}: library {one:?}, oracle {other:?}"));
        }
    }

    fn each<T: PartialEq + std::fmt::Debug>(&mut self, name: &str, ones: &[T], others: &[T]) {
        for (at, (one, other)) in ones.iter().zip(others).enumerate() {
            if one != other {
                self.note(&format!("{name} {at}"), one, other);
            }
        }
    }

    fn report(&mut self, one: &Report, other: &Report) {
        self.each("grant of tile", &one.grants, &other.grants);
        self.each("reason of tile", &one.reasons, &other.reasons);
        self.each("missing ahead of tile", &one.missing, &other.missing);
        self.each("delivery", &one.deliveries, &other.deliveries);
    }

    fn plan(&mut self, one: &Plan, other: &Plan) {
        self.note("entries claimed", &one.count, &other.count);
        self.each("entry", &one.entries, &other.entries);
    }

    fn floor(&mut self, one: &Floor, other: &Floor) {
        self.note("settings", &one.settings, &other.settings);
        self.note("counters", &one.counters, &other.counters);
        self.each("tile", &one.tiles, &other.tiles);
        self.each("place", &one.canisters, &other.canisters);
        self.each("layout", &one.layouts, &other.layouts);
    }
}
