//! What a session has beside its images, and what a call was answered, as bytes.
//! Every reader gives none for bytes that no writer makes.

use ceromby::raw::{self, Delivery};
use ceromby::{
    Booking, Canister, Entry, Plan, Refusal, Report, Settings, Throughput, MAX_HOPPERS, MAX_TILES,
};
use ceromby_session::{Answer, Closed, Denial, Round};

use crate::bytes::{Reader, Writer};

/// What a call was answered.
pub(crate) type Answered = Result<Answer, Denial>;

/// `count` values, one after the other.
fn several<'a, T>(
    reader: &mut Reader<'a>,
    count: usize,
    read: impl Fn(&mut Reader<'a>) -> Option<T>,
) -> Option<Vec<T>> {
    (0..count).map(|_| read(reader)).collect()
}

pub(crate) fn write_plan(plan: &Plan) -> Vec<u8> {
    let mut writer = Writer::default();
    for entry in plan.entries() {
        write_entry(&mut writer, entry);
    }
    writer.0
}

/// None also where the library doesn't take the plan.
pub(crate) fn read_plan(bytes: &[u8]) -> Option<Plan> {
    let mut reader = Reader::new(bytes);
    let entries = several(&mut reader, bytes.len() / ENTRY, read_entry)?;
    Plan::new(&reader.whole(entries)?).ok()
}

/// Bytes of an entry.
const ENTRY: usize = 12;

fn write_entry(writer: &mut Writer, entry: &Entry) {
    writer.u32(entry.tile);
    writer.u32(entry.number);
    writer.u8(entry.label);
    writer.u8(entry.first);
    writer.u8(entry.second);
    writer.u8(entry.stage);
}

fn read_entry(reader: &mut Reader) -> Option<Entry> {
    Some(Entry {
        tile: reader.u32()?,
        number: reader.u32()?,
        label: reader.u8()?,
        first: reader.u8()?,
        second: reader.u8()?,
        stage: reader.u8()?,
    })
}

pub(crate) fn write_records(records: &[Throughput; MAX_HOPPERS]) -> Vec<u8> {
    let mut writer = Writer::default();
    for record in records {
        let memory = record.as_raw();
        writer.f64(memory.last);
        writer.f64(memory.least);
        writer.f64(memory.greatest);
        writer.u16(memory.rounds);
        writer.u16(memory.deliveries);
        writer.u8(memory.closed);
    }
    writer.0
}

/// None also where the library doesn't take a record.
pub(crate) fn read_records(bytes: &[u8]) -> Option<[Throughput; MAX_HOPPERS]> {
    let mut reader = Reader::new(bytes);
    let records = several(&mut reader, MAX_HOPPERS, read_record)?;
    reader.whole(records)?.try_into().ok()
}

fn read_record(reader: &mut Reader) -> Option<Throughput> {
    let memory = raw::Throughput {
        last: reader.f64()?,
        least: reader.f64()?,
        greatest: reader.f64()?,
        rounds: reader.u16()?,
        deliveries: reader.u16()?,
        closed: reader.u8()?,
    };
    memory.try_into().ok()
}

pub(crate) fn write_report(report: &Report) -> Vec<u8> {
    let mut writer = Writer::default();
    add_report(&mut writer, report);
    writer.0
}

pub(crate) fn read_report(bytes: &[u8]) -> Option<Report> {
    let mut reader = Reader::new(bytes);
    let report = take_report(&mut reader)?;
    reader.whole(report)
}

/// The tiles up to the last that has anything but zeros, and all deliveries.
fn add_report(writer: &mut Writer, report: &Report) {
    let memory = report.as_raw();
    let used = (0..MAX_TILES).rev().find(|&tile| {
        memory.grants[tile] != 0 || memory.reasons[tile] != 0 || memory.missing[tile] != 0
    });
    let tiles = used.map_or(0, |last| last + 1);
    writer.u64(report.hoppers());
    writer.u8(tiles as u8);
    for tile in 0..tiles {
        writer.u8(memory.grants[tile]);
        writer.u8(memory.reasons[tile]);
        writer.u16(memory.missing[tile]);
    }
    for delivery in &memory.deliveries {
        writer.u8(delivery.count);
        delivery
            .numbers
            .iter()
            .for_each(|number| writer.u32(*number));
    }
}

fn take_report(reader: &mut Reader) -> Option<Report> {
    let mut memory = raw::Report::default();
    let hoppers = reader.u64()?;
    let tiles = usize::from(reader.u8()?);
    for tile in 0..tiles {
        *memory.grants.get_mut(tile)? = reader.u8()?;
        memory.reasons[tile] = reader.u8()?;
        memory.missing[tile] = reader.u16()?;
    }
    for delivery in &mut memory.deliveries {
        *delivery = Delivery {
            count: reader.u8()?,
            numbers: [reader.u32()?, reader.u32()?, reader.u32()?, reader.u32()?],
        };
    }
    Some(Report::new(memory, hoppers))
}

/// The first byte of an answer.
mod kind {
    pub const BEGUN: u8 = 1;
    pub const BOOKED: u8 = 2;
    pub const LISTED: u8 = 3;
    pub const DONE: u8 = 4;
    pub const ROUND: u8 = 5;
    pub const ENTERED: u8 = 6;
    pub const RELEASED: u8 = 7;
    pub const PUT: u8 = 8;
    pub const REFUSED: u8 = 128;
    pub const NO_FLOOR: u8 = 129;
    pub const HOLDS: u8 = 130;
    pub const BARGE_HOLDS: u8 = 131;
    pub const NOT_ON_BARGE: u8 = 132;
    pub const PLAN_FULL: u8 = 133;
}

pub(crate) fn write_answered(answered: &Answered) -> Vec<u8> {
    let mut writer = Writer::default();
    match answered {
        Ok(answer) => add_answer(&mut writer, answer),
        Err(denial) => add_denial(&mut writer, denial),
    }
    writer.0
}

pub(crate) fn read_answered(bytes: &[u8]) -> Option<Answered> {
    let mut reader = Reader::new(bytes);
    let answered = match reader.u8()? {
        kind if kind < kind::REFUSED => Ok(take_answer(&mut reader, kind)?),
        kind => Err(take_denial(&mut reader, kind)?),
    };
    reader.whole(answered)
}

fn add_answer(writer: &mut Writer, answer: &Answer) {
    match answer {
        Answer::Begun {
            settings,
            plan_ended,
        } => {
            writer.u8(kind::BEGUN);
            add_settings(writer, settings);
            writer.u8((*plan_ended).into());
        }
        Answer::Booked { tile, canister } => {
            writer.u8(kind::BOOKED);
            writer.u32(*tile);
            add_canister(writer, canister);
        }
        Answer::Listed(list) => {
            writer.u8(kind::LISTED);
            writer.u8(list.len() as u8); // at most 64
            for entry in list {
                writer.u32(entry.tile);
                add_canister(writer, &entry.canister);
                writer.u8(entry.answer);
            }
        }
        Answer::Done => writer.u8(kind::DONE),
        Answer::Round(round) => {
            writer.u8(kind::ROUND);
            add_round(writer, round);
        }
        Answer::Entered(entry) => {
            writer.u8(kind::ENTERED);
            write_entry(writer, entry);
        }
        Answer::Released {
            label,
            tile,
            canister,
        } => {
            writer.u8(kind::RELEASED);
            writer.u8(*label);
            writer.u32(*tile);
            add_canister(writer, canister);
        }
        Answer::Put { plan_ended } => {
            writer.u8(kind::PUT);
            writer.u8((*plan_ended).into());
        }
    }
}

fn take_answer(reader: &mut Reader, kind: u8) -> Option<Answer> {
    Some(match kind {
        kind::BEGUN => Answer::Begun {
            settings: take_settings(reader)?,
            plan_ended: take_bool(reader)?,
        },
        kind::BOOKED => Answer::Booked {
            tile: reader.u32()?,
            canister: take_canister(reader)?,
        },
        kind::LISTED => {
            let count = reader.u8()?;
            Answer::Listed(several(reader, count.into(), take_booking)?)
        }
        kind::DONE => Answer::Done,
        kind::ROUND => Answer::Round(take_round(reader)?),
        kind::ENTERED => Answer::Entered(read_entry(reader)?),
        kind::RELEASED => Answer::Released {
            label: reader.u8()?,
            tile: reader.u32()?,
            canister: take_canister(reader)?,
        },
        kind::PUT => Answer::Put {
            plan_ended: take_bool(reader)?,
        },
        _ => return None,
    })
}

fn add_denial(writer: &mut Writer, denial: &Denial) {
    match denial {
        Denial::Refused(refusal) => {
            writer.u8(kind::REFUSED);
            writer.u8(refusal.number());
        }
        Denial::NoFloor => writer.u8(kind::NO_FLOOR),
        Denial::Holds(canisters) => {
            writer.u8(kind::HOLDS);
            writer.u32(*canisters);
        }
        Denial::BargeHolds { floor, canisters } => {
            writer.u8(kind::BARGE_HOLDS);
            writer.u32(*floor);
            writer.u32(*canisters);
        }
        Denial::NotOnBarge(floor) => {
            writer.u8(kind::NOT_ON_BARGE);
            writer.u32(*floor);
        }
        Denial::PlanFull => writer.u8(kind::PLAN_FULL),
    }
}

fn take_denial(reader: &mut Reader, kind: u8) -> Option<Denial> {
    Some(match kind {
        kind::REFUSED => Denial::Refused(Refusal::of(reader.u8()?)?),
        kind::NO_FLOOR => Denial::NoFloor,
        kind::HOLDS => Denial::Holds(reader.u32()?),
        kind::BARGE_HOLDS => Denial::BargeHolds {
            floor: reader.u32()?,
            canisters: reader.u32()?,
        },
        kind::NOT_ON_BARGE => Denial::NotOnBarge(reader.u32()?),
        kind::PLAN_FULL => Denial::PlanFull,
        _ => return None,
    })
}

fn take_bool(reader: &mut Reader) -> Option<bool> {
    match reader.u8()? {
        0 => Some(false),
        1 => Some(true),
        _ => None,
    }
}

fn add_settings(writer: &mut Writer, settings: &Settings) {
    writer.u8(settings.columns);
    writer.u8(settings.rows);
    writer.u64(settings.hoppers);
    writer.u64(settings.sources);
    writer.u16(settings.width);
    writer.u16(settings.length);
    writer.u16(settings.gap);
    writer.u16(settings.travel);
}

fn take_settings(reader: &mut Reader) -> Option<Settings> {
    Some(Settings {
        columns: reader.u8()?,
        rows: reader.u8()?,
        hoppers: reader.u64()?,
        sources: reader.u64()?,
        width: reader.u16()?,
        length: reader.u16()?,
        gap: reader.u16()?,
        travel: reader.u16()?,
    })
}

fn add_canister(writer: &mut Writer, canister: &Canister) {
    writer.u32(canister.number);
    writer.u16(canister.a);
    writer.u16(canister.b);
}

fn take_canister(reader: &mut Reader) -> Option<Canister> {
    Some(Canister {
        number: reader.u32()?,
        a: reader.u16()?,
        b: reader.u16()?,
    })
}

fn take_booking(reader: &mut Reader) -> Option<Booking> {
    Some(Booking {
        tile: reader.u32()?,
        canister: take_canister(reader)?,
        answer: reader.u8()?,
    })
}

fn add_round(writer: &mut Writer, round: &Round) {
    writer.u64(round.number);
    add_report(writer, &round.report);
    writer.u8(round.closed.len() as u8); // at most one for each hopper
    for closed in &round.closed {
        writer.u32(closed.hopper);
        writer.f64(closed.rate);
    }
    writer.u8(round.labels.len() as u8); // at most 64
    round.labels.iter().for_each(|label| writer.u8(*label));
}

fn take_round(reader: &mut Reader) -> Option<Round> {
    let number = reader.u64()?;
    let report = take_report(reader)?;
    let count = reader.u8()?;
    let closed = several(reader, count.into(), |reader| {
        Some(Closed {
            hopper: reader.u32()?,
            rate: reader.f64()?,
        })
    })?;
    let count = reader.u8()?;
    let labels = reader.take(count.into())?.to_vec();
    Some(Round {
        number,
        report,
        closed,
        labels,
    })
}
