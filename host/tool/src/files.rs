//! Floors in files: read to the end or not at all, and replaced whole or not at
//! all.

use std::fs::{self, File, OpenOptions};
use std::io::{self, Read, Write};
use std::os::unix::fs::{fchown, MetadataExt, OpenOptionsExt};
use std::path::{Path, PathBuf};
use std::process;

/// No byte of an image after so many changes what it loads as.
const ENOUGH: u64 = 74_591;

/// Links that are followed from one to the next.
const MOST_LINKS: usize = 40;

/// The bytes of an image in a file.
pub fn read(file: &Path) -> io::Result<Vec<u8>> {
    image(File::open(file)?)
}

/// The bytes of an image.
pub fn image(source: impl Read) -> io::Result<Vec<u8>> {
    let mut image = Vec::new();
    source.take(ENOUGH).read_to_end(&mut image)?;
    Ok(image)
}

/// Puts bytes in a file's place. They are in a new file beside it and on its
/// device before that takes the old one's name: whatever fails, or ends the
/// program, leaves the old file as it was or the new one whole.
///
/// A link stays one, and its target is replaced. Only a regular file that may be
/// written is; the new one has its mode and, where that is allowed, its owner.
pub fn replace(file: &Path, bytes: &[u8]) -> io::Result<()> {
    let target = target(file)?;
    let old = match fs::metadata(&target) {
        Ok(metadata) => Some(replaceable(&target, metadata)?),
        Err(error) if error.kind() == io::ErrorKind::NotFound => None,
        Err(error) => return Err(error),
    };
    let folder = folder(&target);
    // opened first: whoever may not look at the folder can't sync it afterwards
    let opened = File::open(folder)?;
    // one that may hold a secret isn't open to others before it has the old mode
    let mode = if old.is_some() { 0o600 } else { 0o666 };
    let (name, new) = create_in(folder, mode)?;
    let filled = fill(&new, bytes, old.as_ref());
    let placed = filled.and_then(|()| fs::rename(&name, &target));
    if let Err(error) = placed {
        // what failed is said; a file that can't be removed either is left
        let _ = fs::remove_file(&name);
        return Err(error);
    }
    opened.sync_all()
}

/// Whether two names lead to one file, there or not.
pub fn are_same(one: &Path, other: &Path) -> bool {
    let place = |file: &Path| -> io::Result<PathBuf> {
        let target = target(file)?;
        let name = target.file_name().unwrap_or_default();
        Ok(fs::canonicalize(folder(&target))?.join(name))
    };
    let inode = |file: &Path| fs::metadata(file).map(|found| (found.dev(), found.ino()));
    let equal = |one: io::Result<_>, other: io::Result<_>| matches!((one, other), (Ok(one), Ok(other)) if one == other);
    matches!((place(one), place(other)), (Ok(one), Ok(other)) if one == other)
        || equal(inode(one), inode(other))
}

/// The file that a name leads to over any links, there or not.
fn target(file: &Path) -> io::Result<PathBuf> {
    let mut target = file.to_path_buf();
    for _ in 0..MOST_LINKS {
        match fs::symlink_metadata(&target) {
            Ok(metadata) if metadata.is_symlink() => {
                target = folder(&target).join(fs::read_link(&target)?);
            }
            _ => return Ok(target),
        }
    }
    Err(io::Error::other("too many links"))
}

/// The folder that a file is in.
fn folder(file: &Path) -> &Path {
    match file.parent() {
        Some(parent) if !parent.as_os_str().is_empty() => parent,
        _ => Path::new("."),
    }
}

fn replaceable(file: &Path, old: fs::Metadata) -> io::Result<fs::Metadata> {
    if old.is_dir() {
        return Err(io::Error::other("it is a directory"));
    }
    if !old.is_file() {
        return Err(io::Error::other("it isn't a regular file"));
    }
    if old.permissions().readonly() {
        return Err(io::Error::other("it is read-only"));
    }
    // whoever may write the folder could replace another's file too
    OpenOptions::new().write(true).open(file)?;
    Ok(old)
}

/// A new file in a folder, under a name that no other program uses.
fn create_in(folder: &Path, mode: u32) -> io::Result<(PathBuf, File)> {
    let mut attempt = 0;
    loop {
        let name = folder.join(format!("ceromby.{}.{attempt}.new", process::id()));
        let created = OpenOptions::new()
            .write(true)
            .create_new(true)
            .mode(mode)
            .open(&name);
        match created {
            // one that an earlier program of this number left
            Err(error) if error.kind() == io::ErrorKind::AlreadyExists && attempt < 100 => {
                attempt += 1;
            }
            created => return Ok((name, created?)),
        }
    }
}

/// Writes all bytes, with the old file's mode, and sees them on the device.
fn fill(new: &File, bytes: &[u8], old: Option<&fs::Metadata>) -> io::Result<()> {
    let mut writer = new;
    writer.write_all(bytes)?;
    if let Some(old) = old {
        // whoever may not give a file away keeps it
        let _ = fchown(new, Some(old.uid()), Some(old.gid()));
        new.set_permissions(old.permissions())?;
    }
    new.sync_all()
}
