//! Commands carried out.

use std::fmt;
use std::io;
use std::path::Path;
use std::time::{Duration, SystemTime};

use ceromby::{Booking, Floor, Refusal, LONGEST_LIST, MAX_ALLOWANCE};
use ceromby_session::json::{self, Json};
use ceromby_session::{Answer, Call, Denial, OnFloor, Operation, Session};
use ceromby_store::{Store, StoreError};

use crate::backend::{Backend, Failure};
use crate::denied::{Denied, Ended, Stop, Unusable};
use crate::line::{self, Command};
use crate::output::{Output, Tone};
use crate::rounds::{self, Cut, Goal, Ran};
use crate::say::{self, Subject};
use crate::show::{self, Left, Shown};
use crate::status::Status;
use crate::{draw, files, help, kept, past, why};

const DAY: Duration = Duration::from_secs(24 * 60 * 60);

/// `rounds` takes at most this many.
pub const MOST_ROUNDS: u32 = 100_000;

/// What a command gave, beside its lines.
#[derive(Clone, PartialEq, Debug)]
pub struct Reply {
    /// How it ended.
    pub status: Status,
    /// The library's refusal, where it refused.
    pub refusal: Option<Refusal>,
    /// The number of the earlier call whose answer this is, by its key.
    pub repeated: Option<u64>,
    /// For programs; null where it gave nothing.
    pub gave: Json,
}

impl Reply {
    fn gave(gave: Json) -> Reply {
        Reply {
            gave,
            ..Reply::nothing(Status::Accepted)
        }
    }

    fn nothing(status: Status) -> Reply {
        Reply {
            status,
            refusal: None,
            repeated: None,
            gave: Json::Null,
        }
    }
}

/// A list of bookings that is being typed. One more than a list may have is
/// kept, so that the library refuses it.
#[derive(Debug, Default)]
struct List {
    entries: Vec<Booking>,
    typed: u64,
    key: Option<String>,
}

/// Carries out commands: a backend, and the list that is being typed.
#[derive(Debug)]
pub struct Tool<B> {
    backend: B,
    list: Option<List>,
    /// Of the call under way.
    key: Option<String>,
    /// What a command gave before it ended early.
    partly: Option<Json>,
    /// The earlier call whose answer was given again.
    repeated: Option<u64>,
}

impl<B: Backend> Tool<B> {
    /// With no list begun.
    pub fn new(backend: B) -> Tool<B> {
        Tool {
            backend,
            list: None,
            key: None,
            partly: None,
            repeated: None,
        }
    }

    /// The session as it is.
    pub fn session(&self) -> &Session {
        self.backend.session()
    }

    /// How many entries were typed of a list that isn't sent.
    pub fn listing(&self) -> Option<u64> {
        self.list.as_ref().map(|list| list.typed)
    }

    /// Gives up a list that isn't sent; whether there was one.
    pub fn give_up_list(&mut self) -> bool {
        self.list.take().is_some()
    }

    /// Carries out one command and tells what it gave, or why it wasn't.
    pub fn obey(&mut self, command: &Command, out: &mut dyn Output) -> Result<Reply, Stop> {
        self.repeated = None;
        self.partly = None;
        let looked = match command.looks() {
            true => self.backend.refresh(),
            false => Ok(()),
        };
        let carried = match looked.map_err(|failure| Ended::by(command.word(), failure)) {
            Ok(()) => self.carry_out(command, out),
            Err(ended) => Err(ended),
        };
        let mut reply = match carried {
            Ok(reply) => reply,
            Err(ended) => Reply {
                gave: self.partly.take().unwrap_or(Json::Null),
                ..denied(ended, out)?
            },
        };
        reply.repeated = self.repeated;
        if let Some(call) = reply.repeated {
            out.say(
                Tone::Plain,
                format_args!("key: this is the answer of call {call}, made earlier"),
            )?;
        }
        Ok(reply)
    }

    fn carry_out(&mut self, command: &Command, out: &mut dyn Output) -> Result<Reply, Ended> {
        match command {
            Command::Call(call) => return self.call(call, out),
            Command::Load { file, give_up } => return self.load(file, *give_up, out),
            Command::Save(file) => {
                let image = self.operation(None, "save", |hand| Ok(hand.floor.to_image()?))?;
                return self.store("save", file, &image, out);
            }
            Command::Draw(file) => {
                let drawing = self.operation(None, "draw", |hand| Ok(draw::svg(&hand.floor)))?;
                return self.store("draw", file, drawing.as_bytes(), out);
            }
            Command::Rounds { floor, rounds } => return self.rounds(*floor, *rounds, out),
            Command::UntilEmpty { floor } => return self.until_empty(*floor, out),
            Command::EndList => return self.send(out),
            Command::Ask { floor, question } => {
                let shown = show::answer(self.session(), *floor, *question);
                return tell(self.asked(shown, *floor, question.word())?, out);
            }
            Command::Where { floor, number } => {
                let shown = show::locate(&self.backend, *floor, *number);
                let shown = shown.map_err(|failure| Ended::by("where", failure))?;
                return tell(self.asked(shown, *floor, "where")?, out);
            }
            Command::Entries => return tell(show::entries(self.session()), out),
            Command::Offer => return tell(self.offer()?, out),
            Command::Barge => return tell(show::barge(self.session()), out),
            Command::History(last) => return self.past("history", *last, past::history, out),
            Command::Delivered(last) => return self.past("delivered", *last, past::delivered, out),
            Command::Trim(day) => return self.trim(day, out),
            Command::Keyed(key, command) => return self.keyed(key, command, out),
            Command::BeginList => {
                // begun again it keeps its key
                let before = self.list.take().and_then(|list| list.key);
                self.list = Some(List {
                    key: self.key.take().or(before),
                    ..List::default()
                })
            }
            Command::ListEntry(booking) => self.add(*booking),
            Command::Help(None) => help::list(out)?,
            Command::Help(Some(form)) => help::about(form, out)?,
            Command::Quit => {}
        }
        Ok(Reply::nothing(Status::Accepted))
    }

    /// Makes a call, with the key if there is one.
    fn made(&mut self, call: &Call) -> Result<Answer, Ended> {
        let answered = match self.key.take() {
            None => self.backend.call(call),
            Some(key) => {
                let made = self.backend.call_keyed(call, &key);
                made.map(|(answered, repeated)| {
                    self.repeated = repeated;
                    answered
                })
            }
        };
        let answered = answered.map_err(|failure| Ended::by(call.name(), failure))?;
        Ok(answered.map_err(|denial| {
            let denied = Denied::call(self.session(), call, denial);
            // the floor is another one by now
            let explained = denied.explained.filter(|_| self.repeated.is_none());
            Denied {
                explained,
                ..denied
            }
        })?)
    }

    /// What is called with a key. A list has it until it is sent.
    fn keyed(
        &mut self,
        key: &str,
        command: &Command,
        out: &mut dyn Output,
    ) -> Result<Reply, Ended> {
        // said at the beginning of a list, not at its end
        self.stored(command.word(), |_| Ok(()))?;
        self.key = Some(key.to_owned());
        let carried = self.carry_out(command, out);
        self.key = None;
        carried
    }

    /// Asks the store.
    fn stored<T>(
        &mut self,
        word: &'static str,
        ask: impl FnOnce(&mut Store) -> Result<T, Failure>,
    ) -> Result<T, Ended> {
        let found = self.backend.store().and_then(ask);
        found.map_err(|failure| Ended::by(word, failure))
    }

    /// Tells what the store has recorded.
    fn past(
        &mut self,
        word: &'static str,
        last: u32,
        ask: impl FnOnce(&mut Store, u32) -> Result<Shown, StoreError>,
        out: &mut dyn Output,
    ) -> Result<Reply, Ended> {
        let shown = self.stored(word, |store| ask(store, last).map_err(kept::failure))?;
        tell(shown, out)
    }

    fn trim(&mut self, day: &str, out: &mut dyn Output) -> Result<Reply, Ended> {
        let shown = self.stored("trim", |store| {
            let before = store.moment(day).map_err(kept::failure)?;
            let before = before.ok_or_else(|| {
                let day = say::shown(day.as_bytes());
                let words = format!("{day} is no day; expected: one as 2026-11-18");
                Failure::passing(Status::Unreadable, words)
            })?;
            // tomorrow's midnight ends today
            if before > SystemTime::now() + DAY {
                let words = format!("{day} is after tomorrow; nothing was removed");
                return Err(Failure::passing(Status::Refused, words));
            }
            past::trim(store, day, before).map_err(kept::failure)
        })?;
        tell(shown, out)
    }

    fn call(&mut self, call: &Call, out: &mut dyn Output) -> Result<Reply, Ended> {
        let answer = self.made(call)?;
        self.answered(call, &answer, out)?;
        Ok(Reply::gave(json::answer(&answer)))
    }

    /// Tells what an accepted call gave.
    fn answered(&self, call: &Call, answer: &Answer, out: &mut dyn Output) -> io::Result<()> {
        let (on, name) = (say::on(call.on()), call.name());
        let mut plain = |line: fmt::Arguments| out.say(Tone::Plain, line);
        match answer {
            Answer::Begun {
                settings,
                plan_ended,
            } => {
                plain(format_args!("{name}: {}", say::made(settings)))?;
                say_ended(*plan_ended, out)
            }
            Answer::Booked { tile, canister } => {
                let canister = say::canister(canister);
                plain(format_args!("{on}{name}: {canister} on tile {tile}"))
            }
            // told entry by entry
            Answer::Listed(_) => Ok(()),
            Answer::Done => plain(format_args!("{on}{name}: {}", done(call))),
            Answer::Round(round) => {
                let several = self.has_several(call.on());
                rounds::tell(call.on(), round, several, out)
            }
            Answer::Entered(entry) => plain(format_args!("{name}: {}", say::entry(entry))),
            Answer::Released {
                label,
                tile,
                canister,
            } => {
                let canister = say::canister(canister);
                plain(format_args!(
                    "{name}: label {label} is {canister} on tile {tile}"
                ))
            }
            Answer::Put { plan_ended } => {
                plain(format_args!("{name}: {}", done(call)))?;
                say_ended(*plan_ended, out)
            }
        }
    }

    /// Whether a floor has several hoppers, so that lines name them.
    fn has_several(&self, floor: Option<u32>) -> bool {
        let operation = show::operation(self.session(), floor);
        operation.is_ok_and(|there| say::several(there.floor.settings()))
    }

    fn offer(&self) -> Result<Shown, Denied> {
        show::offer(self.session()).map_err(|denial| Denied {
            floor: None,
            word: "offer",
            denial,
            subject: Subject::Plan,
            explained: None,
        })
    }

    fn load(&mut self, file: &Path, give_up: bool, out: &mut dyn Output) -> Result<Reply, Ended> {
        let image = files::read(file).map_err(|error| Unusable::unread(file, error))?;
        let empty = image.is_empty();
        let call = Call::Load { image, give_up };
        let answer = self.made(&call)?;
        match &answer {
            Answer::Begun {
                settings,
                plan_ended,
            } if empty => {
                let made = say::made(settings);
                let note = "the file was empty: this is the standard floor, all counters 0";
                out.say(Tone::Plain, format_args!("load: {made}; {note}"))?;
                say_ended(*plan_ended, out)?;
            }
            answer => self.answered(&call, answer, out)?,
        }
        let mut gave = json::answer(&answer);
        if let Json::Object(fields) = &mut gave {
            fields.push(("empty", Json::Bool(empty)));
        }
        Ok(Reply::gave(gave))
    }

    /// Puts bytes in a file's place, for the command of that word.
    fn store(
        &self,
        word: &'static str,
        file: &Path,
        bytes: &[u8],
        out: &mut dyn Output,
    ) -> Result<Reply, Ended> {
        let replaced = match self.backend.keeps(file) {
            true => Err(io::Error::other("it is the store")),
            false => files::replace(file, bytes),
        };
        replaced.map_err(|error| Unusable::unwritten(word, file, error))?;
        let (bytes, name) = (bytes.len(), say::path(file));
        out.say(Tone::Plain, format_args!("{word}: {bytes} bytes in {name}"))?;
        Ok(Reply::gave(Json::Object(vec![
            ("file", Json::Text(name)),
            ("bytes", (bytes as u64).into()),
        ])))
    }

    /// Looks at a floor; denied by the command's word where it isn't there.
    fn operation<T>(
        &self,
        floor: Option<u32>,
        word: &'static str,
        look: impl FnOnce(&Operation) -> Result<T, Denial>,
    ) -> Result<T, Denied> {
        let found = show::operation(self.session(), floor).and_then(look);
        self.asked(found, floor, word)
    }

    /// What was asked of a floor, or denied by the command's word.
    fn asked<T>(
        &self,
        found: Result<T, Denial>,
        floor: Option<u32>,
        word: &'static str,
    ) -> Result<T, Denied> {
        found.map_err(|denial| Denied::question(self.session(), floor, word, denial))
    }

    fn add(&mut self, booking: Booking) {
        let list = self.list.get_or_insert_with(List::default);
        list.typed += 1;
        if list.entries.len() <= LONGEST_LIST {
            list.entries.push(booking);
        }
    }

    /// Sends the list and tells each answer.
    fn send(&mut self, out: &mut dyn Output) -> Result<Reply, Ended> {
        let list = self.list.take().unwrap_or_default();
        let before = self.session().hand().map(|hand| hand.floor.clone());
        let call = Call::BookList(list.entries.clone());
        self.key.clone_from(&list.key);
        let made = self.made(&call);
        if let Err(Ended::Store(..)) = made {
            // nothing was sent: `end` may be typed again
            self.list = Some(list);
            return made.map(|_| Reply::nothing(Status::Accepted));
        }
        let answer = made.map_err(|ended| match ended {
            Ended::Denied(denied) => {
                let parts = format!("{} were typed; send them in parts", list.typed);
                let explained = denied.denial.refusal().map(|_| parts);
                Ended::Denied(Denied {
                    explained,
                    ..denied
                })
            }
            other => other,
        })?;
        let mut reply = Reply::gave(json::answer(&answer));
        if let Answer::Listed(entries) = answer {
            let before = before.filter(|_| self.repeated.is_none());
            reply.status = say_entries(before, &entries, out)?;
        }
        Ok(reply)
    }

    fn rounds(
        &mut self,
        floor: Option<u32>,
        rounds: u32,
        out: &mut dyn Output,
    ) -> Result<Reply, Ended> {
        self.operation(floor, "rounds", |_| Ok(()))?;
        let on = say::on(floor);
        if rounds > MOST_ROUNDS {
            out.say(
                Tone::Refused,
                format_args!("{on}rounds: at most {MOST_ROUNDS}"),
            )?;
            return Ok(Reply::nothing(Status::Refused));
        }
        let ran = self.run(floor, "rounds", Goal::Rounds(rounds.into()), out)?;
        let now = self.now(floor);
        let (done, cut) = (ran.rounds, cut(&ran));
        out.say(
            Tone::Plain,
            format_args!("{on}rounds: {done} done{cut}, now at round {now}"),
        )?;
        Ok(Reply::gave(Json::Object(ran.fields(now))))
    }

    fn until_empty(&mut self, floor: Option<u32>, out: &mut dyn Output) -> Result<Reply, Ended> {
        let bound = self.operation(floor, "until", |there| Ok(there.floor.bound()?))?;
        let goal = Goal::Deliveries {
            canisters: bound.connected.into(),
            at_most: bound.rounds.into(),
        };
        let ran = self.run(floor, "until", goal, out)?;
        let now = self.now(floor);
        let left = self.operation(floor, "until", |there| Ok(show::left(&there.floor)))?;
        say_left(floor, &ran, now, &left, out)?;
        let mut fields = ran.fields(now);
        fields.push(("left", left.iter().map(Left::object).collect()));
        Ok(Reply::gave(Json::Object(fields)))
    }

    /// Goes rounds; one that isn't made ends the command, after what was done.
    fn run(
        &mut self,
        floor: Option<u32>,
        word: &'static str,
        goal: Goal,
        out: &mut dyn Output,
    ) -> Result<Ran, Ended> {
        let several = self.has_several(floor);
        let mut ran = rounds::run(&mut self.backend, floor, several, goal, out)?;
        let Some(cut) = ran.cut.take() else {
            return Ok(ran);
        };
        let (done, now) = (ran.rounds, self.now(floor));
        if done > 0 {
            let on = say::on(floor);
            out.say(
                Tone::Plain,
                format_args!("{on}{word}: {done} rounds done, then"),
            )?;
            self.partly = Some(Json::Object(ran.fields(now)));
        }
        Err(match cut {
            Cut::Failed(failure) => Ended::by(word, failure),
            Cut::Denied(denial) => {
                let call = line::on(floor, OnFloor::Round);
                let denied = Denied::call(self.session(), &call, denial);
                Denied { word, ..denied }.into()
            }
        })
    }

    /// The rounds of a floor since it came to its place.
    fn now(&self, floor: Option<u32>) -> u64 {
        show::operation(self.session(), floor).map_or(0, |there| there.rounds)
    }
}

/// Tells why a command was not carried out.
fn denied(ended: Ended, out: &mut dyn Output) -> Result<Reply, Stop> {
    match ended {
        Ended::Denied(denied) => {
            out.say(Tone::Refused, format_args!("{denied}"))?;
            Ok(Reply {
                refusal: denied.denial.refusal(),
                ..Reply::nothing(Status::Refused)
            })
        }
        Ended::File(unusable) => {
            out.say(Tone::Wrong, format_args!("{unusable}"))?;
            Ok(Reply::nothing(Status::File))
        }
        Ended::Store(word, failure, status) => {
            out.say(Tone::Wrong, format_args!("{word}: {failure}"))?;
            Ok(Reply::nothing(status))
        }
        Ended::Stop(stop) => Err(stop),
    }
}

/// Tells what a question gave.
fn tell(shown: Shown, out: &mut dyn Output) -> Result<Reply, Ended> {
    for line in &shown.lines {
        out.say(Tone::Plain, format_args!("{line}"))?;
    }
    Ok(Reply::gave(shown.gave))
}

/// What a call did that has nothing else to tell.
fn done(call: &Call) -> String {
    let (stop, repair) = (OnFloor::Stop, OnFloor::Repair);
    match call {
        Call::Stop(tile) => pressed(&stop(*tile)),
        Call::Repair(tile) => pressed(&repair(*tile)),
        Call::On { call, .. } => pressed(call),
        Call::Keep(name) | Call::Recall(name) | Call::Forget(name) => format!("{name} done"),
        Call::NewPlan => "no entries".to_owned(),
        Call::Put { floor, .. } => format!("now floor {floor} of the barge"),
        Call::Allowance(most) if (1..=MAX_ALLOWANCE).contains(most) => most.to_string(),
        Call::Allowance(most) => {
            format!("{most}; calls on the barge are refused until it is 1 to {MAX_ALLOWANCE}")
        }
        _ => "done".to_owned(),
    }
}

/// A tile that was stopped or repaired, and how it is now.
fn pressed(call: &OnFloor) -> String {
    match call {
        OnFloor::Stop(tile) => format!("tile {tile} stopped"),
        OnFloor::Repair(tile) => format!("tile {tile} running"),
        _ => "done".to_owned(),
    }
}

/// That rounds were ended early.
fn cut(ran: &Ran) -> &'static str {
    if ran.interrupted {
        ", interrupted"
    } else {
        ""
    }
}

/// What is on the floor after `until`, and why.
fn say_left(
    floor: Option<u32>,
    ran: &Ran,
    now: u64,
    left: &[Left],
    out: &mut dyn Output,
) -> io::Result<()> {
    let (on, done, cut) = (say::on(floor), say::counted(ran.rounds, "round"), cut(ran));
    let found = match left.iter().map(Left::canisters).sum() {
        0 => "the floor is empty".to_owned(),
        canisters => format!("{} left", say::counted(canisters, "canister")),
    };
    out.say(
        Tone::Plain,
        format_args!("{on}until: {done} done{cut}, now at round {now}; {found}"),
    )?;
    for left in left {
        out.say(Tone::Plain, format_args!("{}", left.line()))?;
    }
    Ok(())
}

/// A plan that ended with its floor.
fn say_ended(plan_ended: bool, out: &mut dyn Output) -> io::Result<()> {
    if plan_ended {
        out.say(
            Tone::Plain,
            format_args!("plan: no entries, its floor is gone"),
        )?;
    }
    Ok(())
}

/// The answers of a list. The floor is that before it, if it is known; the
/// bookings are made on it one by one, so that each refusal is explained as the
/// library met it.
fn say_entries(
    mut floor: Option<Floor>,
    entries: &[Booking],
    out: &mut dyn Output,
) -> io::Result<Status> {
    let mut status = Status::Accepted;
    if entries.is_empty() {
        out.say(Tone::Plain, format_args!("list: no entries"))?;
    }
    for (at, entry) in (1..).zip(entries) {
        let Booking { tile, canister, .. } = entry;
        let Some(Err(refusal)) = entry.answer() else {
            let shown = say::canister(canister);
            out.say(
                Tone::Plain,
                format_args!("list {at}: book: {shown} on tile {tile}"),
            )?;
            let booked = floor.as_mut().map(|floor| floor.book(*tile, *canister));
            // another program came between: what explains refusals isn't known
            floor = floor.filter(|_| booked == Some(Ok(())));
            continue;
        };
        status = Status::Refused;
        let (number, place) = (canister.number, Some(*canister));
        let explained = floor
            .as_ref()
            .and_then(|floor| why::booking(floor, *tile, number, place, refusal));
        let denied = Denied {
            floor: None,
            word: "book",
            denial: refusal.into(),
            subject: Subject::Floor,
            explained,
        };
        out.say(Tone::Refused, format_args!("list {at}: {denied}"))?;
    }
    Ok(status)
}
