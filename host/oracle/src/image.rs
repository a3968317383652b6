//! Writing and loading an image.

use core::mem::take;

use crate::calls::fresh;
use crate::check::{settings_refusal, well_formed};
use crate::faults::{self, Fault};
use crate::refusal;
use crate::types::{
    only, Answer, Canister, Counters, Floor, Layout, Settings, Tile, WriteAnswer, MAX_HOPPERS,
    MAX_LAYOUTS, PLACES,
};

/// Bytes of the longest image. It has eight layouts and one hopper, as a tile
/// holds more bytes than a hopper adds.
pub const LONGEST_IMAGE: usize = 8_908;

const HEAD: usize = 4;
const SETTINGS: u16 = 1;
const COUNTERS: u16 = 2;
const TILE: u16 = 3;
const END: u16 = 4;
const LAYOUT: u16 = 5;

const SETTINGS_BODY: usize = 20;
const HOPPER_SET: usize = 8;
const COUNTERS_BODY: usize = 8;
const DELIVERED_BODY: usize = 4;
const TILE_BODY: usize = 6;
const CANISTER_BODY: usize = 8;
const LAYOUT_BODY: usize = 16;

/// The settings of the floor that zero bytes load.
pub const STANDARD: Settings = Settings {
    columns: 4,
    rows: 4,
    hoppers: 1 << 10,
    sources: 1 << 4,
    width: 1_000,
    length: 250,
    gap: 50,
    travel: 200,
};

pub fn write(floor: &Floor, buffer: &mut [u8]) -> WriteAnswer {
    if !well_formed(floor) {
        return refused_write(refusal::MALFORMED);
    }
    let length = image_length(floor);
    match buffer.get_mut(..length + usize::from(faults::on(Fault::ExactBuffer))) {
        Some(target) => {
            Writer { rest: target }.floor(floor);
            if faults::on(Fault::TailTouched) {
                buffer[length..].fill(0);
            }
            WriteAnswer {
                refusal: refusal::ACCEPTED,
                length: length as u32,
            }
        }
        None => refused_write(refusal::SHORT_BUFFER),
    }
}

fn refused_write(refusal: u8) -> WriteAnswer {
    WriteAnswer { refusal, length: 0 }
}

fn image_length(floor: &Floor) -> usize {
    let tiles = (0..floor.settings.tile_count())
        .map(|tile| HEAD + tile_body(floor.members(tile).len()))
        .sum::<usize>();
    let (settings, counters) = (
        settings_body(&floor.settings),
        counters_body(&floor.settings),
    );
    let layouts = floor.layout_count() * (HEAD + LAYOUT_BODY);
    HEAD + settings + HEAD + counters + layouts + tiles + HEAD
}

/// With several hoppers their set is added.
fn settings_body(settings: &Settings) -> usize {
    match settings.hopper_count() {
        1 => SETTINGS_BODY,
        _ => SETTINGS_BODY + HOPPER_SET,
    }
}

/// One delivered counter for each hopper.
fn counters_body(settings: &Settings) -> usize {
    COUNTERS_BODY + DELIVERED_BODY * settings.hopper_count()
}

fn tile_body(canisters: usize) -> usize {
    TILE_BODY + CANISTER_BODY * canisters
}

/// Fills a target of exactly the image's length.
struct Writer<'a> {
    rest: &'a mut [u8],
}

impl Writer<'_> {
    fn put(&mut self, bytes: &[u8]) {
        let (head, tail) = take(&mut self.rest).split_at_mut(bytes.len());
        head.copy_from_slice(bytes);
        self.rest = tail;
    }

    fn head(&mut self, body: usize, kind: u16) {
        self.put(&(body as u16).to_le_bytes());
        self.put(&kind.to_le_bytes());
    }

    fn floor(&mut self, floor: &Floor) {
        self.settings(&floor.settings);
        self.counters(&floor.counters, &floor.settings);
        for layout in &floor.layouts[..floor.layout_count()] {
            self.head(LAYOUT_BODY, LAYOUT);
            self.put(&layout.letters());
            self.put(&layout.set.to_le_bytes());
        }
        for tile in 0..floor.settings.tile_count() {
            self.tile(tile, &floor.tiles[tile], floor.members(tile));
        }
        self.head(0, END);
    }

    fn settings(&mut self, settings: &Settings) {
        let body = settings_body(settings);
        let lowest = settings.hoppers.trailing_zeros() as u8;
        self.head(body, SETTINGS);
        self.put(&[settings.columns, settings.rows, lowest, 0]);
        self.put(&settings.width.to_le_bytes());
        self.put(&settings.length.to_le_bytes());
        self.put(&settings.gap.to_le_bytes());
        self.put(&settings.travel.to_le_bytes());
        self.put(&settings.sources.to_le_bytes());
        if body > SETTINGS_BODY {
            self.put(&settings.hoppers.to_le_bytes());
        }
    }

    fn counters(&mut self, counters: &Counters, settings: &Settings) {
        self.head(counters_body(settings), COUNTERS);
        self.put(&counters.last.to_le_bytes());
        self.put(&counters.booked.to_le_bytes());
        for count in &counters.delivered[..settings.hopper_count()] {
            self.put(&count.to_le_bytes());
        }
    }

    fn tile(&mut self, number: usize, tile: &Tile, members: &[Canister]) {
        self.head(tile_body(members.len()), TILE);
        self.put(&[
            number as u8,
            tile.running,
            tile.distance,
            tile.next,
            tile.token,
            tile.count,
        ]);
        for canister in members {
            self.put(&canister.number.to_le_bytes());
            self.put(&canister.a.to_le_bytes());
            self.put(&canister.b.to_le_bytes());
        }
    }
}

/// Zero bytes load the standard floor, fresh.
pub fn load(bytes: &[u8]) -> Answer {
    match is_blank(bytes) {
        true => fresh(standard()),
        false => load_records(bytes),
    }
}

/// Whether the image is that of a new controller: zero bytes.
fn is_blank(bytes: &[u8]) -> bool {
    let most = usize::from(faults::on(Fault::OneByteLoads));
    bytes.len() <= most && !faults::on(Fault::EmptyRefused)
}

fn standard() -> Settings {
    match faults::on(Fault::StandardExchanged) {
        true => Settings {
            hoppers: STANDARD.sources,
            sources: STANDARD.hoppers,
            ..STANDARD
        },
        false => STANDARD,
    }
}

fn load_records(bytes: &[u8]) -> Answer {
    let mut floor = Floor::ZERO;
    match load_into(&mut floor, bytes) {
        Ok(()) => Answer::accepted(floor),
        Err(refusal) if faults::on(Fault::PartialLoad) => Answer::refused(refusal, &floor),
        Err(refusal) => Answer::refused(refusal, &Floor::ZERO),
    }
}

fn load_into(floor: &mut Floor, bytes: &[u8]) -> Result<(), u8> {
    let mut records = Records { rest: bytes };
    floor.settings = settings_from(records.due(SETTINGS)?)?;
    floor.counters = counters_from(records.due(COUNTERS)?, &floor.settings)?;
    let held = layouts_from(floor, &mut records)?;
    for tile in 0..floor.settings.tile_count() {
        tile_from(floor, tile, records.due(TILE)?)?;
    }
    demand(records.due(END)?.is_empty(), refusal::RECORD_SHAPE)?;
    // A record of zeros would look like an unused place.
    let all_kept = floor.layout_count() == held || faults::on(Fault::ZeroRecord);
    let fits = well_formed(floor) && all_kept;
    if faults::on(Fault::LeftoverLast) {
        demand(fits, refusal::IMAGE_MALFORMED)?;
    }
    demand(records.rest.is_empty(), refusal::IMAGE_ENDS)?;
    demand(fits, refusal::IMAGE_MALFORMED)
}

/// Reads up to eight records of kind 5, as long as they come, and gives their
/// number. What their bytes mean is judged at the end.
fn layouts_from(floor: &mut Floor, records: &mut Records) -> Result<usize, u8> {
    let mut held = 0;
    while held < MAX_LAYOUTS && records.comes(LAYOUT) {
        floor.layouts[held] = layout_from(records.due(LAYOUT)?)?;
        held += 1;
    }
    if faults::on(Fault::NinthRecord) && records.comes(LAYOUT) {
        layout_from(records.due(LAYOUT)?)?;
    }
    Ok(held)
}

fn layout_from(body: &[u8]) -> Result<Layout, u8> {
    demand(body.len() == LAYOUT_BODY, refusal::RECORD_SHAPE)?;
    Ok(Layout {
        name: u64::from_be_bytes(array_at(body, 0)),
        set: u64_at(body, 8),
    })
}

fn demand(holds: bool, refusal: u8) -> Result<(), u8> {
    holds.then_some(()).ok_or(refusal)
}

/// The part of an image that hasn't been read.
struct Records<'a> {
    rest: &'a [u8],
}

impl<'a> Records<'a> {
    fn bytes(&mut self, length: usize) -> Result<&'a [u8], u8> {
        let (head, tail) = self
            .rest
            .split_at_checked(length)
            .ok_or(refusal::IMAGE_ENDS)?;
        self.rest = tail;
        Ok(head)
    }

    /// Whether the next record's head is there and has a kind.
    fn comes(&self, kind: u16) -> bool {
        self.rest.len() >= HEAD && u16_at(self.rest, 2) == kind
    }

    /// The body of the next record, which must be whole and of the kind due.
    fn due(&mut self, kind: u16) -> Result<&'a [u8], u8> {
        let head = self.bytes(HEAD)?;
        let fits = u16_at(head, 2) == kind;
        if faults::on(Fault::KindBeforeEnd) {
            demand(fits, refusal::OTHER_KIND)?;
        }
        let body = self.bytes(usize::from(u16_at(head, 0)))?;
        let other = match faults::on(Fault::KindAsShape) {
            true => refusal::RECORD_SHAPE,
            false => refusal::OTHER_KIND,
        };
        demand(fits, other)?;
        Ok(body)
    }
}

fn settings_from(body: &[u8]) -> Result<Settings, u8> {
    let several = body.len() == SETTINGS_BODY + HOPPER_SET;
    let length_fits = several || body.len() == SETTINGS_BODY;
    demand(length_fits && body[3] == 0, refusal::RECORD_SHAPE)?;
    let set = match several {
        true => u64_at(body, SETTINGS_BODY),
        false => only(body[2]),
    };
    let byte_fits = !several || lowest_fits(set, body[2]);
    demand(
        byte_fits || faults::on(Fault::HopperByteLate),
        refusal::RECORD_SHAPE,
    )?;
    let settings = Settings {
        columns: body[0],
        rows: body[1],
        hoppers: if several { at_least_two(set) } else { set },
        width: u16_at(body, 4),
        length: u16_at(body, 6),
        gap: u16_at(body, 8),
        travel: u16_at(body, 10),
        sources: u64_at(body, 12),
    };
    match settings_refusal(&settings) {
        refusal::ACCEPTED if !byte_fits => Err(refusal::RECORD_SHAPE),
        refusal::ACCEPTED => Ok(settings),
        refusal => Err(refusal),
    }
}

/// Whether the hopper byte is the lowest of the set, on the floor or not.
fn lowest_fits(set: u64, byte: u8) -> bool {
    let untested = set == 0 && !faults::on(Fault::EmptySetTested);
    untested || set.trailing_zeros() == u32::from(byte)
}

/// A long record's set. With fewer than two tiles it counts as empty, which is 2 in its turn.
fn at_least_two(set: u64) -> u64 {
    match set.count_ones() {
        0 => 0,
        1 if !faults::on(Fault::OneBit) => 0,
        _ => set,
    }
}

fn counters_from(body: &[u8], settings: &Settings) -> Result<Counters, u8> {
    demand(body.len() == counters_body(settings), refusal::RECORD_SHAPE)?;
    let mut delivered = [0; MAX_HOPPERS];
    let counts = body[COUNTERS_BODY..].chunks_exact(DELIVERED_BODY);
    for (count, bytes) in delivered.iter_mut().zip(counts) {
        *count = u32_at(bytes, 0);
    }
    Ok(Counters {
        last: u32_at(body, 0),
        booked: u32_at(body, 4),
        delivered,
    })
}

fn tile_from(floor: &mut Floor, tile: usize, body: &[u8]) -> Result<(), u8> {
    demand(body.len() >= TILE_BODY, refusal::RECORD_SHAPE)?;
    let (fields, members) = body.split_at(TILE_BODY);
    let count = usize::from(fields[5]);
    demand(
        usize::from(fields[0]) == tile && count <= PLACES && body.len() == tile_body(count),
        refusal::RECORD_SHAPE,
    )?;
    if faults::on(Fault::RunningEarly) {
        demand(fields[1] <= 1, refusal::IMAGE_MALFORMED)?;
    }
    floor.tiles[tile] = Tile {
        running: fields[1],
        distance: fields[2],
        next: fields[3],
        token: fields[4],
        count: fields[5],
    };
    let places = &mut floor.canisters[tile * PLACES..];
    for (place, bytes) in places.iter_mut().zip(members.chunks_exact(CANISTER_BODY)) {
        *place = Canister {
            number: u32_at(bytes, 0),
            a: u16_at(bytes, 4),
            b: u16_at(bytes, 6),
        };
    }
    Ok(())
}

fn array_at<const N: usize>(bytes: &[u8], at: usize) -> [u8; N] {
    let mut array = [0; N];
    array.copy_from_slice(&bytes[at..at + N]);
    array
}

fn u16_at(bytes: &[u8], at: usize) -> u16 {
    u16::from_le_bytes(array_at(bytes, at))
}

fn u32_at(bytes: &[u8], at: usize) -> u32 {
    u32::from_le_bytes(array_at(bytes, at))
}

fn u64_at(bytes: &[u8], at: usize) -> u64 {
    u64::from_le_bytes(array_at(bytes, at))
}
