//! A file with changed bytes is refused and stays as it is, or is right.

use std::fs;
use std::path::PathBuf;

use ceromby_store::{Options, Store, StoreError};

use crate::support::{account, journal, send, text, Folder, Mirror, Random};

const SEED: u64 = 3;
const CALLS: u64 = 150;
const PAGE: usize = 4096;

struct Flips {
    folder: Folder,
    sound: Vec<u8>,
    /// The same file some calls earlier.
    earlier: Vec<u8>,
    refused: u64,
    right: u64,
}

impl Flips {
    fn new() -> Result<Flips, String> {
        let folder = Folder::new();
        let path = folder.file("sound");
        let mut store = Options::new().unsynced().create(&path).map_err(text)?;
        let mut earlier = vec![];
        for index in 0..CALLS {
            send(&mut store, SEED, index).map(drop).map_err(text)?;
            if index + 6 == CALLS {
                earlier = read(&path)?;
            }
        }
        drop(store);
        Ok(Flips {
            sound: read(&path)?,
            folder,
            earlier,
            refused: 0,
            right: 0,
        })
    }

    /// Opens a file of these bytes.
    fn try_bytes(&mut self, bytes: &[u8]) -> Result<(), String> {
        let path = self.folder.file("changed");
        let _ = fs::remove_file(journal(&path));
        fs::write(&path, bytes).map_err(|error| error.to_string())?;
        match Options::new().unsynced().open(&path) {
            Ok(store) => {
                self.right += 1;
                right(store)?;
                let again = Options::new().unsynced().open(&path);
                again
                    .map(drop)
                    .map_err(|error| format!("when opened again: {error}"))
            }
            Err(
                StoreError::NotAStore(_)
                | StoreError::OtherVersion(_)
                | StoreError::Damaged(_)
                | StoreError::NotOpened(..),
            ) => {
                self.refused += 1;
                if journal(&path).exists() {
                    return Err("it has a journal".to_owned());
                }
                match read(&path)? == bytes {
                    true => Ok(()),
                    false => Err("it was refused and written to".to_owned()),
                }
            }
            Err(other) => Err(format!("{other:?}")),
        }
    }

    /// With one bit changed.
    fn flip(&mut self, at: usize, bit: u64) -> Result<(), String> {
        let mut bytes = self.sound.clone();
        bytes[at] ^= 1 << bit;
        let tried = self.try_bytes(&bytes);
        tried.map_err(|what| format!("bit {bit} of byte {at}: {what}"))
    }

    /// One of these, at random.
    fn change(&self, random: &mut Random) -> Vec<u8> {
        let mut bytes = self.sound.clone();
        let length = bytes.len() as u64;
        let mut any = || random.below(length) as usize;
        let (at, from) = (any(), any());
        let (page, other) = (at / PAGE * PAGE, from / PAGE * PAGE);
        match random.below(10) {
            0..4 => bytes[at] ^= 1 << random.below(8),
            4 => bytes[at] = random.next() as u8,
            5 => {
                for _ in 0..8 {
                    bytes[random.below(length) as usize] ^= random.next() as u8;
                }
            }
            6 => {
                let sector = at / 512 * 512;
                bytes[sector..sector + 512].fill(0);
            }
            7 => bytes.copy_within(other..other + PAGE, page),
            8 if page + PAGE <= self.earlier.len() => {
                bytes[page..page + PAGE].copy_from_slice(&self.earlier[page..page + PAGE])
            }
            _ => bytes.truncate(at),
        }
        bytes
    }
}

fn read(path: &PathBuf) -> Result<Vec<u8>, String> {
    fs::read(path).map_err(|error| error.to_string())
}

/// All that it has, and some calls more.
fn right(mut store: Store) -> Result<(), String> {
    let mut mirror = Mirror::new(SEED);
    mirror.follow(&mut store)?;
    for index in CALLS..CALLS + 4 {
        send(&mut store, SEED, index).map(drop).map_err(text)?;
    }
    mirror.follow(&mut store)?;
    match mirror.calls == CALLS + 4 {
        true => account(&mut store),
        false => Err(format!("{} calls", mirror.calls)),
    }
}

/// Bytes of the file's header.
const HEADER: usize = 100;

/// Each bit of the header, so many random changes, and, if asked, a bit of every
/// byte.
pub fn run(changes: u64, every_byte: bool) -> Result<(), String> {
    let mut flips = Flips::new()?;
    for bit in 0..HEADER * 8 {
        flips.flip(bit / 8, bit as u64 % 8)?;
    }
    let mut random = Random::new(17);
    for number in 0..changes {
        let bytes = flips.change(&mut random);
        if bytes != flips.sound {
            flips
                .try_bytes(&bytes)
                .map_err(|what| format!("change {number}: {what}"))?;
        }
    }
    if every_byte {
        for at in HEADER..flips.sound.len() {
            flips.flip(at, random.below(8))?;
        }
    }
    let Flips { refused, right, .. } = flips;
    println!("flips: {refused} changed files refused, {right} right, none wrong");
    match refused > right && right > 0 {
        true => Ok(()),
        false => Err("too few were refused, or none was right".to_owned()),
    }
}
