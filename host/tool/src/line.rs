//! A line of text as a command.

use std::ffi::OsString;
use std::fmt;
use std::os::unix::ffi::OsStringExt;
use std::path::PathBuf;

use ceromby::{Booking, Canister, Entry, Name, Settings};
use ceromby_session::{Call, OnFloor};

use crate::forms::{self, Form};
use crate::words::{words, Word};

/// What a line asks for.
#[derive(Clone, PartialEq, Debug)]
pub enum Command {
    /// A call, as the session takes it.
    Call(Call),
    /// The floor of a file comes to hand.
    Load {
        /// The file.
        file: PathBuf,
        /// Also where the floor at hand holds canisters.
        give_up: bool,
    },
    /// The floor at hand is kept in a file.
    Save(PathBuf),
    /// The floor at hand is drawn in a file.
    Draw(PathBuf),
    /// So many rounds.
    Rounds {
        /// On the barge's floor of that number; none for the floor at hand.
        floor: Option<u32>,
        /// How many.
        rounds: u32,
    },
    /// Rounds until nothing more can be delivered.
    UntilEmpty {
        /// On the barge's floor of that number; none for the floor at hand.
        floor: Option<u32>,
    },
    /// Begins a list of bookings, or begins it again.
    BeginList,
    /// One more booking of the list.
    ListEntry(Booking),
    /// Sends the list.
    EndList,
    /// A question about one floor.
    Ask {
        /// The barge's floor of that number; none for the floor at hand.
        floor: Option<u32>,
        /// What is asked.
        question: Question,
    },
    /// Where a canister is, or was delivered.
    Where {
        /// On the barge's floor of that number; none for any floor.
        floor: Option<u32>,
        /// The canister's number.
        number: u32,
    },
    /// Every entry of the plan.
    Entries,
    /// The label that the plan offers.
    Offer,
    /// The barge: its allowance, its total, its floors.
    Barge,
    /// The last calls that the store has.
    History(u32),
    /// The last deliveries that the store has.
    Delivered(u32),
    /// Removes the calls before a day from the store.
    Trim(String),
    /// A call, a load or a list with a key of the caller's own.
    Keyed(String, Box<Command>),
    /// The calls, or more about one of them.
    Help(Option<&'static Form>),
    /// The end.
    Quit,
}

/// What is asked about a floor. It changes nothing.
#[derive(Clone, Copy, PartialEq, Eq, Debug)]
pub enum Question {
    /// Counters and page.
    Show,
    /// The page and the tiles' numbers.
    Map,
    /// All that a tile has.
    Read(u32),
    /// Why tiles stood.
    Why,
    /// What the floor was made with.
    Settings,
    /// When at the latest all is delivered.
    Bound,
    /// Rates.
    Throughput,
    /// The layouts that are kept.
    Layouts,
}

impl Question {
    /// The word that asks it.
    pub fn word(self) -> &'static str {
        match self {
            Question::Show => "show",
            Question::Map => "map",
            Question::Read(_) => "read",
            Question::Why => "why",
            Question::Settings => "settings",
            Question::Bound => "bound",
            Question::Throughput => "throughput",
            Question::Layouts => "layouts",
        }
    }
}

impl Command {
    /// Whether it looks at the session or changes it.
    pub fn looks(&self) -> bool {
        match self {
            Command::BeginList | Command::ListEntry(_) | Command::Help(_) | Command::Quit => false,
            Command::Keyed(_, command) => command.looks(),
            _ => true,
        }
    }

    /// The word that it begins with, without `!`.
    pub fn word(&self) -> &'static str {
        match self {
            Command::Call(call) => call.name(),
            Command::Load { .. } => "load",
            Command::Save(_) => "save",
            Command::Draw(_) => "draw",
            Command::Rounds { .. } => "rounds",
            Command::UntilEmpty { .. } => "until",
            Command::BeginList => "list",
            Command::ListEntry(_) => "list entry",
            Command::EndList => "end",
            Command::Ask { question, .. } => question.word(),
            Command::Where { .. } => "where",
            Command::Entries => "entries",
            Command::Offer => "offer",
            Command::Barge => "barge",
            Command::History(_) => "history",
            Command::Delivered(_) => "delivered",
            Command::Trim(_) => "trim",
            Command::Keyed(_, command) => command.word(),
            Command::Help(_) => "help",
            Command::Quit => "quit",
        }
    }
}

/// Why a line can't be read.
#[derive(Clone, PartialEq, Eq, Debug)]
pub struct Unreadable {
    /// What is wrong with it.
    pub fault: Fault,
    /// What was expected: the call as it is typed.
    pub expected: &'static str,
}

/// What is wrong with a line, and with which word.
#[derive(Clone, PartialEq, Eq, Debug)]
pub enum Fault {
    /// It has over 400 bytes.
    TooLong,
    /// A quotation mark isn't closed, or something follows it.
    Quotation(String),
    /// The word names no call; perhaps another was meant.
    NoCall(String, Option<&'static str>),
    /// The argument of that name isn't there.
    Missing(&'static str),
    /// A word after the last argument.
    Spare(String),
    /// The word is no number.
    NoNumber(String),
    /// The word is a number above 4294967295.
    TooGreat(String),
    /// The word isn't tiles with commas between them.
    NoTiles(String),
    /// The word isn't the one that has to come here.
    Other(String),
}

impl Fault {
    /// The word at fault, as it can be shown.
    pub fn word(&self) -> Option<&str> {
        match self {
            Fault::TooLong | Fault::Missing(_) => None,
            Fault::Quotation(word)
            | Fault::NoCall(word, _)
            | Fault::Spare(word)
            | Fault::NoNumber(word)
            | Fault::TooGreat(word)
            | Fault::NoTiles(word)
            | Fault::Other(word) => Some(word),
        }
    }
}

impl fmt::Display for Fault {
    fn fmt(&self, f: &mut fmt::Formatter) -> fmt::Result {
        match self {
            Fault::TooLong => write!(f, "over {LONGEST} bytes"),
            Fault::Quotation(word) => write!(f, "{word} isn't quoted as \"NAME\""),
            Fault::NoCall(word, None) => write!(f, "{word} is no call"),
            Fault::NoCall(word, Some(meant)) => write!(f, "{word} is no call, {meant} is"),
            Fault::Missing(name) => write!(f, "{name} is missing"),
            Fault::Spare(word) => write!(f, "{word} is a word too many"),
            Fault::NoNumber(word) => write!(f, "{word} is no number"),
            Fault::TooGreat(word) => write!(f, "{word} is above {}", u32::MAX),
            Fault::NoTiles(word) => write!(f, "{word} isn't tiles, 0 to 63, as 0,2,3"),
            Fault::Other(word) => write!(f, "{word} can't come here"),
        }
    }
}

impl fmt::Display for Unreadable {
    fn fmt(&self, f: &mut fmt::Formatter) -> fmt::Result {
        write!(f, "{}; expected: {}", self.fault, self.expected)
    }
}

impl std::error::Error for Unreadable {}

/// Bytes of the longest line; a line that is a remark may have more.
pub const LONGEST: usize = 400;

/// So many calls or deliveries are shown where no number is given.
const LAST: u32 = 20;

const A_CALL: &str = "a call, as help lists them";
const IN_A_LIST: &str = "TILE NUMBER A B, or end, list or quit";

/// The command of a line; none where it says nothing. `in_list`: a list of
/// bookings is begun.
pub fn command(line: &[u8], in_list: bool) -> Result<Option<Command>, Unreadable> {
    let words = words(line)?;
    let Some(first) = words.first() else {
        return Ok(None);
    };
    let command = if in_list {
        in_a_list(&words)?
    } else {
        call(first, Arguments::after(&words))?
    };
    Ok(Some(command))
}

/// A line of a list: its end, its beginning once more, the program's end, or an
/// entry.
fn in_a_list(words: &[Word]) -> Result<Command, Unreadable> {
    if let [word] = words {
        match word.lowered().as_str() {
            "end" => return Ok(Command::EndList),
            "list" => return Ok(Command::BeginList),
            "quit" | "exit" => return Ok(Command::Quit),
            _ => {}
        }
    }
    let mut arguments = Arguments {
        words: words.iter(),
        usage: IN_A_LIST,
    };
    let (tile, number) = (arguments.number("TILE")?, arguments.number("NUMBER")?);
    let (a, b) = (arguments.number("A")?, arguments.number("B")?);
    arguments.end()?;
    let canister = Canister::new(number, short(a), short(b));
    Ok(Command::ListEntry(Booking::new(tile, canister)))
}

/// A call by its word.
fn call(word: &Word, mut arguments: Arguments) -> Result<Command, Unreadable> {
    let lowered = word.lowered();
    let (plain, give_up) = match lowered.strip_suffix('!') {
        Some(plain @ ("fresh" | "load" | "put" | "take")) => (plain, true),
        Some(_) => ("", true),
        None => (lowered.as_str(), false),
    };
    arguments.usage = forms::of(plain).map_or(A_CALL, |form| form.usage);
    match plain {
        "fresh" => arguments.fresh(give_up),
        "load" => {
            let file = arguments.path()?;
            arguments.then(Command::Load { file, give_up })
        }
        "save" => {
            let file = arguments.path()?;
            arguments.then(Command::Save(file))
        }
        "draw" => {
            let file = arguments.path()?;
            arguments.then(Command::Draw(file))
        }
        "list" => arguments.then(Command::BeginList),
        "keep" => arguments.named(Call::Keep),
        "recall" => arguments.named(Call::Recall),
        "forget" => arguments.named(Call::Forget),
        "plan" => arguments.then(Command::Call(Call::NewPlan)),
        "entry" => arguments.entry(),
        "entries" => arguments.then(Command::Entries),
        "offer" => arguments.then(Command::Offer),
        "release" => arguments.one("LABEL", |label| Command::Call(Call::Release(byte(label)))),
        "put" => arguments.one("FLOOR", |floor| Command::Call(Call::Put { floor, give_up })),
        "take" => arguments.one("FLOOR", |floor| {
            Command::Call(Call::Take { floor, give_up })
        }),
        "allowance" => arguments.one("N", |most| Command::Call(Call::Allowance(most))),
        "barge" => arguments.then(Command::Barge),
        "on" => arguments.on(),
        "history" => arguments.last(Command::History),
        "delivered" => arguments.last(Command::Delivered),
        "trim" => {
            let day = arguments.next("DAY")?.text();
            arguments.then(Command::Trim(day))
        }
        "key" => arguments.keyed(),
        "help" | "?" => arguments.help(),
        "quit" | "exit" => arguments.then(Command::Quit),
        other => match arguments.about_a_floor(other, None)? {
            Some(command) => Ok(command),
            None => Err(no_call(word)),
        },
    }
}

/// A word that names no call, with the call that was perhaps meant.
fn no_call(word: &Word) -> Unreadable {
    Unreadable {
        fault: Fault::NoCall(word.shown(), meant(&word.lowered())),
        expected: A_CALL,
    }
}

/// The call that differs by one letter, or whose beginning the word is.
fn meant(word: &str) -> Option<&'static str> {
    let mut near = forms::all().filter(|form| one_off(word.as_bytes(), form.word.as_bytes()));
    let mut begun = forms::all().filter(|form| word.len() > 1 && form.word.starts_with(word));
    near.next().or_else(|| begun.next()).map(|form| form.word)
}

/// Whether one byte after the first was changed, left out or put in.
fn one_off(word: &[u8], name: &[u8]) -> bool {
    let same = word.iter().zip(name).take_while(|(x, y)| x == y).count();
    let after = |of: &[u8], skipped| of.get(same + skipped..).map(<[u8]>::to_vec);
    let ways = [(1, 1), (1, 0), (0, 1)];
    let mut rests = ways
        .map(|(x, y)| (after(word, x), after(name, y)))
        .into_iter();
    same > 0 && rests.any(|(x, y)| x.is_some() && x == y)
}

/// The words after a call's own.
struct Arguments<'a> {
    words: std::slice::Iter<'a, Word>,
    usage: &'static str,
}

impl<'a> Arguments<'a> {
    /// All but the first word.
    fn after(words: &'a [Word]) -> Arguments<'a> {
        let mut words = words.iter();
        words.next();
        Arguments {
            words,
            usage: A_CALL,
        }
    }

    fn unreadable(&self, fault: Fault) -> Unreadable {
        Unreadable {
            fault,
            expected: self.usage,
        }
    }

    fn next(&mut self, name: &'static str) -> Result<&'a Word, Unreadable> {
        match self.words.next() {
            Some(word) => Ok(word),
            None => Err(self.unreadable(Fault::Missing(name))),
        }
    }

    fn is_done(&self) -> bool {
        self.words.as_slice().is_empty()
    }

    fn end(mut self) -> Result<(), Unreadable> {
        match self.words.next() {
            None => Ok(()),
            Some(word) => Err(self.unreadable(Fault::Spare(word.shown()))),
        }
    }

    /// A command that takes no further word.
    fn then(self, command: Command) -> Result<Command, Unreadable> {
        self.end()?;
        Ok(command)
    }

    fn number(&mut self, name: &'static str) -> Result<u32, Unreadable> {
        let word = self.next(name)?;
        word.number().map_err(|fault| self.unreadable(fault))
    }

    /// A command that takes one number.
    fn one(
        mut self,
        name: &'static str,
        command: impl FnOnce(u32) -> Command,
    ) -> Result<Command, Unreadable> {
        let number = self.number(name)?;
        self.then(command(number))
    }

    /// A call that takes a layout's name.
    fn named(mut self, call: impl FnOnce(Name) -> Call) -> Result<Command, Unreadable> {
        let name = self.next("NAME")?.name();
        self.then(Command::Call(call(name)))
    }

    fn path(&mut self) -> Result<PathBuf, Unreadable> {
        let word = self.next("FILE")?;
        self.usage = "one FILE, quoted if it has blanks";
        Ok(OsString::from_vec(word.bytes.clone()).into())
    }

    fn tiles(&mut self, name: &'static str) -> Result<u64, Unreadable> {
        let word = self.next(name)?;
        word.tiles()
            .ok_or_else(|| self.unreadable(Fault::NoTiles(word.shown())))
    }

    fn fresh(mut self, give_up: bool) -> Result<Command, Unreadable> {
        let columns = byte(self.number("W")?);
        let rows = byte(self.number("H")?);
        let hoppers = self.tiles("HOPPERS")?;
        let sources = self.sources(columns, rows, hoppers)?;
        let settings = Settings {
            columns,
            rows,
            hoppers,
            sources,
            width: short(self.number("U")?),
            length: short(self.number("l")?),
            gap: short(self.number("r")?),
            travel: short(self.number("v")?),
        };
        self.then(Command::Call(Call::Fresh { settings, give_up }))
    }

    /// The fill tiles: all but the hoppers, none, or those named.
    fn sources(&mut self, columns: u8, rows: u8, hoppers: u64) -> Result<u64, Unreadable> {
        let next = self.words.as_slice().first();
        match next.map(Word::lowered).as_deref() {
            Some("all") => {
                self.words.next();
                Ok(every_tile(columns, rows) & !hoppers)
            }
            Some("none") => {
                self.words.next();
                Ok(0)
            }
            _ => self.tiles("FILL"),
        }
    }

    fn entry(mut self) -> Result<Command, Unreadable> {
        let (label, tile) = (self.number("LABEL")?, self.number("TILE")?);
        let mut after = [0; 2];
        for label in &mut after {
            if !self.is_done() {
                *label = byte(self.number("AFTER")?);
            }
        }
        let entry = Entry::waiting(byte(label), tile, after[0], after[1]);
        self.then(Command::Call(Call::Entry(entry)))
    }

    /// A command that takes one number, or none.
    fn last(mut self, command: impl FnOnce(u32) -> Command) -> Result<Command, Unreadable> {
        let last = match self.is_done() {
            true => LAST,
            false => self.number("N")?,
        };
        self.then(command(last))
    }

    /// `key KEY`, then what is called once.
    fn keyed(mut self) -> Result<Command, Unreadable> {
        let key = self.next("KEY")?.text();
        let word = self.next("CALL")?;
        let command = call(word, self)?;
        match command {
            Command::Call(_) | Command::Load { .. } | Command::BeginList => {
                Ok(Command::Keyed(key, Box::new(command)))
            }
            _ => Err(Unreadable {
                fault: Fault::Other(word.shown()),
                expected: "key KEY, then one call that changes a floor, the plan or the barge",
            }),
        }
    }

    fn help(mut self) -> Result<Command, Unreadable> {
        self.usage = "help [CALL]";
        let Some(word) = self.words.next() else {
            return Ok(Command::Help(None));
        };
        let form = forms::of(&word.lowered()).ok_or_else(|| no_call(word))?;
        self.then(Command::Help(Some(form)))
    }

    /// `on FLOOR`, then a call or question about that floor.
    fn on(mut self) -> Result<Command, Unreadable> {
        let floor = self.number("FLOOR")?;
        let word = self.next("CALL")?;
        let lowered = word.lowered();
        if let Some(form) = forms::of(&lowered) {
            self.usage = form.usage;
        }
        let command = self.about_a_floor(&lowered, Some(floor))?;
        command.ok_or_else(|| Unreadable {
            fault: Fault::Other(word.shown()),
            expected: "on FLOOR, then book, stop, repair, round, rounds or a question",
        })
    }

    /// A call or question that can be about any floor; none for another word.
    fn about_a_floor(
        mut self,
        word: &str,
        floor: Option<u32>,
    ) -> Result<Option<Command>, Unreadable> {
        let made = |call: OnFloor| Command::Call(on(floor, call));
        let ask = |question| Command::Ask { floor, question };
        let command = match word {
            "book" => made(self.booking()?),
            "stop" => made(OnFloor::Stop(self.number("TILE")?)),
            "repair" => made(OnFloor::Repair(self.number("TILE")?)),
            "round" => made(OnFloor::Round),
            "rounds" => Command::Rounds {
                floor,
                rounds: self.number("N")?,
            },
            "until" => self.until(floor)?,
            "show" => ask(Question::Show),
            "map" => ask(Question::Map),
            "read" => ask(Question::Read(self.number("TILE")?)),
            "where" => Command::Where {
                floor,
                number: self.number("NUMBER")?,
            },
            "why" => ask(Question::Why),
            "settings" => ask(Question::Settings),
            "bound" => ask(Question::Bound),
            "throughput" => ask(Question::Throughput),
            "layouts" => ask(Question::Layouts),
            _ => return Ok(None),
        };
        self.then(command).map(Some)
    }

    fn booking(&mut self) -> Result<OnFloor, Unreadable> {
        let (tile, number) = (self.number("TILE")?, self.number("NUMBER")?);
        if self.is_done() {
            return Ok(OnFloor::BookAnywhere { tile, number });
        }
        let (a, b) = (self.number("A")?, self.number("B")?);
        let canister = Canister::new(number, short(a), short(b));
        Ok(OnFloor::Book { tile, canister })
    }

    fn until(&mut self, floor: Option<u32>) -> Result<Command, Unreadable> {
        let word = self.next("empty")?;
        if word.lowered() != "empty" {
            return Err(self.unreadable(Fault::Other(word.shown())));
        }
        Ok(Command::UntilEmpty { floor })
    }
}

/// A call on the floor at hand or on one of the barge.
pub fn on(floor: Option<u32>, call: OnFloor) -> Call {
    if let Some(floor) = floor {
        return Call::On { floor, call };
    }
    match call {
        OnFloor::Book { tile, canister } => Call::Book { tile, canister },
        OnFloor::BookAnywhere { tile, number } => Call::BookAnywhere { tile, number },
        OnFloor::Stop(tile) => Call::Stop(tile),
        OnFloor::Repair(tile) => Call::Repair(tile),
        OnFloor::Round => Call::Round,
    }
}

/// The tiles of a floor; none where it has more than 64, which is refused.
fn every_tile(columns: u8, rows: u8) -> u64 {
    let tiles = u32::from(columns) * u32::from(rows);
    match tiles {
        64 => u64::MAX,
        0..=63 => (1 << tiles) - 1,
        _ => 0,
    }
}

/// The nearest number that fits. What is cut off here is refused with the same
/// number as what was typed.
fn byte(number: u32) -> u8 {
    u8::try_from(number).unwrap_or(u8::MAX)
}

fn short(number: u32) -> u16 {
    u16::try_from(number).unwrap_or(u16::MAX)
}
