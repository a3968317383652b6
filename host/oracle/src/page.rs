//! The floor as a page of text (request [7]).

use crate::check::well_formed;
use crate::faults::{self, Fault};
use crate::grid::Side;
use crate::refusal;
use crate::types::{Floor, Settings, Tile, WriteAnswer, NONE};

/// Bytes of the longest page, of 8 x 8 tiles.
pub const LONGEST_PAGE: usize = 528;

/// Bytes of a tile on its line, with the bar after it.
const CELL: usize = 8;

pub fn page(floor: &Floor, buffer: &mut [u8]) -> WriteAnswer {
    match checked_page(floor, buffer) {
        Ok(length) => WriteAnswer {
            refusal: refusal::ACCEPTED,
            length: length as u32,
        },
        Err(refusal) => WriteAnswer { refusal, length: 0 },
    }
}

/// H lines of a bar, W tiles and a byte 10.
fn length(settings: &Settings) -> usize {
    usize::from(settings.rows) * line_length(settings)
}

fn line_length(settings: &Settings) -> usize {
    CELL * usize::from(settings.columns) + 2
}

fn checked_page(floor: &Floor, buffer: &mut [u8]) -> Result<usize, u8> {
    let settings = &floor.settings;
    let length = length(settings);
    let short = buffer.len() < length + usize::from(faults::on(Fault::ExactPage));
    if short && faults::on(Fault::ShortPageFirst) {
        return Err(refusal::SHORT_PAGE);
    }
    if !well_formed(floor) {
        return Err(refusal::MALFORMED);
    }
    let mut lines = [0; LONGEST_PAGE];
    fill(floor, &mut lines[..length]);
    if short {
        if faults::on(Fault::PageBegun) {
            let fits = buffer.len().min(length);
            buffer[..fits].copy_from_slice(&lines[..fits]);
        }
        return Err(refusal::SHORT_PAGE);
    }
    buffer[..length].copy_from_slice(&lines[..length]);
    if let (Some(after), true) = (buffer.get_mut(length), faults::on(Fault::PageByteMore)) {
        *after = 0;
    }
    Ok(length)
}

/// Fills a target of exactly the page's length, the north row first.
fn fill(floor: &Floor, target: &mut [u8]) {
    let settings = &floor.settings;
    let (columns, rows) = (usize::from(settings.columns), usize::from(settings.rows));
    let lines = target.chunks_exact_mut(line_length(settings));
    for (line, row) in lines.zip((0..rows).rev()) {
        let row = match faults::on(Fault::SouthFirst) {
            true => rows - 1 - row,
            false => row,
        };
        line[0] = b'|';
        for column in 0..columns {
            let cell = &mut line[1 + CELL * column..][..CELL];
            cell.copy_from_slice(&cell_of(&floor.tiles[column * rows + row]));
        }
        line[1 + CELL * columns] = 10;
    }
}

/// Count, arrow and distance, with blanks between them and a bar after.
fn cell_of(tile: &Tile) -> [u8; CELL] {
    let [tens, ones] = number(tile.count);
    let [far, near] = distance(tile);
    [tens, ones, b' ', letter(tile.next), b' ', far, near, b'|']
}

/// A number below 100, right-aligned in two.
fn number(number: u8) -> [u8; 2] {
    let (tens, ones) = (number / 10, number % 10);
    match tens {
        0 => [b' ', b'0' + ones],
        _ => [b'0' + tens, b'0' + ones],
    }
}

fn letter(arrow: u8) -> u8 {
    match Side::from_code(arrow) {
        Some(Side::South) if faults::on(Fault::LettersSwapped) => b'N',
        Some(Side::North) if faults::on(Fault::LettersSwapped) => b'S',
        Some(Side::West) => b'W',
        Some(Side::South) => b'S',
        Some(Side::North) => b'N',
        Some(Side::East) => b'E',
        None => b'-',
    }
}

fn distance(tile: &Tile) -> [u8; 2] {
    if tile.running == 0 && !faults::on(Fault::StoppedDashed) {
        return *b"XX";
    }
    match number(tile.distance) {
        _ if tile.distance == NONE => *b"--",
        [b' ', ones] if faults::on(Fault::DistanceLeft) => [ones, b' '],
        digits => digits,
    }
}
