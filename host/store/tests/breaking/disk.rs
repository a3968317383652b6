//! A disk in memory that SQLite writes to (a VFS): what was synced is there after
//! a power cut, of the rest any part. Its operations can also be made to fail.

use std::cell::RefCell;
use std::collections::BTreeMap;
use std::ffi::{c_char, c_double, c_int, c_void, CStr};
use std::ptr;
use std::slice;

use crate::support::Random;

/// What can be made to fail.
#[derive(Clone, Copy, PartialEq, Eq, PartialOrd, Ord, Debug)]
pub enum Operation {
    Open,
    Write,
    Sync,
    Truncate,
    Delete,
}

/// How an operation fails.
#[derive(Clone, Copy, PartialEq, Eq, Debug)]
pub enum Fault {
    /// With an error of the device, once.
    Once,
    /// A write that half of was made.
    Half,
    /// The disk is full.
    Full,
    /// Once, and what a failed sync had to write never comes to the disk, nor the
    /// end of a file that the folder's sync had to.
    Lost,
    /// This one and every one after it.
    Always,
}

/// What happens at the operation that is counted down to.
#[derive(Clone, Copy, PartialEq, Eq, Debug)]
enum Plan {
    Nothing,
    /// From there on nothing comes to the disk.
    Cut,
    Fail(Fault),
}

/// A change that wasn't synced.
#[derive(Clone)]
enum Change {
    Write(usize, Vec<u8>),
    Truncate(usize),
}

/// A file, as programs see it and as it is on the disk.
#[derive(Clone, Default)]
struct Content {
    now: Vec<u8>,
    synced: Vec<u8>,
    unsynced: Vec<Change>,
    /// Whether the folder on the disk has it.
    listed: bool,
    /// Whether programs see it.
    there: bool,
    /// The file of that name that the folder on the disk still has in place of it.
    old: Option<Vec<u8>>,
}

#[derive(Default)]
pub struct Disk {
    files: BTreeMap<String, Content>,
    plan: Option<(u64, Plan)>,
    failing: bool,
    dead: bool,
    /// What the plan met, and how often each operation was made.
    pub met: Option<Operation>,
    pub made: BTreeMap<Operation, u64>,
}

thread_local! {
    static DISK: RefCell<Disk> = RefCell::default();
}

/// With the disk of this thread.
pub fn disk<T>(act: impl FnOnce(&mut Disk) -> T) -> T {
    DISK.with_borrow_mut(act)
}

impl Disk {
    /// An empty disk.
    pub fn clear(&mut self) {
        *self = Disk::default();
    }

    /// The power goes after so many operations.
    pub fn cut_after(&mut self, operations: u64) {
        self.plan = Some((operations, Plan::Cut));
    }

    /// The operation after so many fails.
    pub fn fail_after(&mut self, operations: u64, fault: Fault) {
        self.plan = Some((operations, Plan::Fail(fault)));
        self.met = None;
    }

    /// Nothing fails any more.
    pub fn heal(&mut self) {
        self.plan = None;
        self.failing = false;
    }

    pub fn is_cut(&self) -> bool {
        self.dead
    }

    /// The power comes again: each file has what was synced, and of what was written
    /// since then what chance left.
    pub fn restart(&mut self, random: &mut Random) {
        self.files.retain(|_, file| file.survive(random));
        self.plan = None;
        self.dead = false;
    }

    /// Counts an operation; its plan, if it comes to pass now.
    fn meet(&mut self, operation: Operation) -> Plan {
        *self.made.entry(operation).or_default() += 1;
        if self.dead {
            return Plan::Cut;
        }
        if self.failing {
            return Plan::Fail(Fault::Always);
        }
        match &mut self.plan {
            None => Plan::Nothing,
            Some((left, _)) if *left > 0 => {
                *left -= 1;
                Plan::Nothing
            }
            Some((_, plan)) => {
                let plan = *plan;
                self.plan = None;
                self.met = Some(operation);
                self.dead = plan == Plan::Cut;
                self.failing = plan == Plan::Fail(Fault::Always);
                plan
            }
        }
    }
}

impl Content {
    fn write(&mut self, at: usize, bytes: &[u8]) {
        apply(&mut self.now, at, bytes);
        self.unsynced.push(Change::Write(at, bytes.to_vec()));
    }

    fn truncate(&mut self, length: usize) {
        self.now.truncate(length);
        self.unsynced.push(Change::Truncate(length));
    }

    fn sync(&mut self) {
        for change in self.unsynced.drain(..) {
            match change {
                Change::Write(at, bytes) => apply(&mut self.synced, at, &bytes),
                Change::Truncate(length) => self.synced.truncate(length),
            }
        }
        // and the folder
        self.listed = true;
        self.old = None;
    }

    /// Removes it; on the disk it is there until the folder is synced.
    fn unlink(&mut self) {
        let old = self.listed.then(|| std::mem::take(&mut self.synced));
        *self = Content {
            old: old.or(self.old.take()),
            ..Content::default()
        };
    }

    /// What a power cut leaves; false if no file.
    fn survive(&mut self, random: &mut Random) -> bool {
        // of a name that came or went without a sync of the folder the disk has either
        if let Some(old) = self.old.take().filter(|_| random.one_in(2)) {
            *self = Content {
                now: old.clone(),
                synced: old,
                listed: true,
                there: true,
                ..Content::default()
            };
            return true;
        }
        if !self.listed {
            self.listed = self.there && random.one_in(2);
        }
        // some cuts take all, some leave all, and most do either to each part
        let mood = random.below(4);
        for change in std::mem::take(&mut self.unsynced) {
            match (change, mood) {
                (_, 0) => {}
                (Change::Write(at, bytes), 1) => apply(&mut self.synced, at, &bytes),
                (Change::Write(at, bytes), _) => tear(&mut self.synced, at, &bytes, random),
                (Change::Truncate(length), 1) => self.synced.truncate(length),
                (Change::Truncate(length), _) if random.one_in(2) => self.synced.truncate(length),
                (Change::Truncate(_), _) => {}
            }
        }
        self.now = self.synced.clone();
        self.there = self.listed;
        self.there
    }
}

fn apply(content: &mut Vec<u8>, at: usize, bytes: &[u8]) {
    let end = at + bytes.len();
    if content.len() < end {
        content.resize(end, 0);
    }
    content[at..end].copy_from_slice(bytes);
}

/// Part of a write: all, none, its beginning, its end, or some of its sectors, and
/// at times nonsense in one of them.
fn tear(content: &mut Vec<u8>, at: usize, bytes: &[u8], random: &mut Random) {
    let within = random.below(bytes.len() as u64 + 1) as usize;
    match random.below(6) {
        0 => {}
        1 => apply(content, at, bytes),
        2 => apply(content, at, &bytes[..within]),
        3 => apply(content, at + within, &bytes[within..]),
        _ => {
            for (sector, part) in bytes.chunks(512).enumerate() {
                let at = at + sector * 512;
                match random.below(8) {
                    0..4 => apply(content, at, part),
                    4 => {
                        let nonsense: Vec<u8> = part.iter().map(|_| random.next() as u8).collect();
                        apply(content, at, &nonsense);
                    }
                    _ => {}
                }
            }
        }
    }
}

const OK: c_int = 0;
const NOT_FOUND: c_int = 12;
const FULL: c_int = 13;
const CANNOT_OPEN: c_int = 14;
const READ_FAILED: c_int = 266;
const SHORT_READ: c_int = 522;
const WRITE_FAILED: c_int = 778;
const SYNC_FAILED: c_int = 1034;
const TRUNCATE_FAILED: c_int = 1546;
const DELETE_FAILED: c_int = 2570;
const FOLDER_SYNC_FAILED: c_int = 1290;
const CREATE: c_int = 4;
const DELETE_ON_CLOSE: c_int = 8;
const POWERSAFE_OVERWRITE: c_int = 0x1000;

/// `sqlite3_file` of this VFS.
#[repr(C)]
struct File {
    methods: *const Methods,
    name: *mut String,
    delete_on_close: bool,
}

/// `sqlite3_io_methods`, version 1.
#[repr(C)]
struct Methods {
    version: c_int,
    close: unsafe extern "C" fn(*mut File) -> c_int,
    read: unsafe extern "C" fn(*mut File, *mut c_void, c_int, i64) -> c_int,
    write: unsafe extern "C" fn(*mut File, *const c_void, c_int, i64) -> c_int,
    truncate: unsafe extern "C" fn(*mut File, i64) -> c_int,
    sync: unsafe extern "C" fn(*mut File, c_int) -> c_int,
    size: unsafe extern "C" fn(*mut File, *mut i64) -> c_int,
    lock: unsafe extern "C" fn(*mut File, c_int) -> c_int,
    unlock: unsafe extern "C" fn(*mut File, c_int) -> c_int,
    reserved: unsafe extern "C" fn(*mut File, *mut c_int) -> c_int,
    control: unsafe extern "C" fn(*mut File, c_int, *mut c_void) -> c_int,
    sector: unsafe extern "C" fn(*mut File) -> c_int,
    device: unsafe extern "C" fn(*mut File) -> c_int,
}

type Unused = Option<unsafe extern "C" fn()>;

/// `sqlite3_vfs`, version 1.
#[repr(C)]
struct Vfs {
    version: c_int,
    file_size: c_int,
    longest_path: c_int,
    next: *mut Vfs,
    name: *const c_char,
    data: *mut c_void,
    open: unsafe extern "C" fn(*mut Vfs, *const c_char, *mut File, c_int, *mut c_int) -> c_int,
    delete: unsafe extern "C" fn(*mut Vfs, *const c_char, c_int) -> c_int,
    access: unsafe extern "C" fn(*mut Vfs, *const c_char, c_int, *mut c_int) -> c_int,
    full_path: unsafe extern "C" fn(*mut Vfs, *const c_char, c_int, *mut c_char) -> c_int,
    dl: [Unused; 4],
    randomness: unsafe extern "C" fn(*mut Vfs, c_int, *mut c_char) -> c_int,
    sleep: unsafe extern "C" fn(*mut Vfs, c_int) -> c_int,
    time: unsafe extern "C" fn(*mut Vfs, *mut c_double) -> c_int,
    last_error: unsafe extern "C" fn(*mut Vfs, c_int, *mut c_char) -> c_int,
}

// header.c has the same
const _: () = assert!(size_of::<Methods>() == 104 && size_of::<Vfs>() == 136);

extern "C" {
    fn sqlite3_vfs_register(vfs: *mut Vfs, default: c_int) -> c_int;
}

static METHODS: Methods = Methods {
    version: 1,
    close,
    read,
    write,
    truncate,
    sync,
    size,
    lock,
    unlock: lock,
    reserved,
    control,
    sector,
    device,
};

/// From now on every file of SQLite is on the disk of its thread.
pub fn register() {
    let vfs = Box::new(Vfs {
        version: 1,
        file_size: size_of::<File>() as c_int,
        longest_path: 512,
        next: ptr::null_mut(),
        name: c"memory-disk".as_ptr(),
        data: ptr::null_mut(),
        open,
        delete,
        access,
        full_path,
        dl: [None; 4],
        randomness,
        sleep,
        time,
        last_error,
    });
    // SAFETY: the VFS lives as long as the program.
    let code = unsafe { sqlite3_vfs_register(Box::leak(vfs), 1) };
    assert_eq!(code, OK);
}

/// The file that a handle names.
///
/// # Safety
/// The handle was opened here and isn't closed.
unsafe fn with<T>(file: *mut File, act: impl FnOnce(&mut Disk, &str) -> T) -> T {
    let name = unsafe { &*(*file).name };
    disk(|disk| act(disk, name))
}

unsafe fn path(name: *const c_char) -> String {
    unsafe { CStr::from_ptr(name) }
        .to_string_lossy()
        .into_owned()
}

unsafe extern "C" fn open(
    _: *mut Vfs,
    name: *const c_char,
    file: *mut File,
    flags: c_int,
    given: *mut c_int,
) -> c_int {
    let name = match name.is_null() {
        true => "temporary".to_owned(),
        false => unsafe { path(name) },
    };
    unsafe { (*file).methods = ptr::null() };
    let code = disk(|disk| {
        match disk.meet(Operation::Open) {
            Plan::Nothing => {}
            _ => return CANNOT_OPEN,
        }
        let there = disk.files.get(&name).is_some_and(|content| content.there);
        if !there && flags & CREATE == 0 {
            return CANNOT_OPEN;
        }
        let content = disk.files.entry(name.clone()).or_default();
        content.there = true;
        OK
    });
    if code == OK {
        let handle = File {
            methods: &METHODS,
            name: Box::into_raw(Box::new(name)),
            delete_on_close: flags & DELETE_ON_CLOSE != 0,
        };
        unsafe { file.write(handle) };
        if !given.is_null() {
            unsafe { *given = flags };
        }
    }
    code
}

unsafe extern "C" fn close(file: *mut File) -> c_int {
    let name = unsafe { Box::from_raw((*file).name) };
    if unsafe { (*file).delete_on_close } {
        disk(|disk| disk.files.remove(&*name));
    }
    OK
}

unsafe extern "C" fn read(file: *mut File, into: *mut c_void, length: c_int, at: i64) -> c_int {
    let into = unsafe { slice::from_raw_parts_mut(into.cast::<u8>(), length as usize) };
    let read = |disk: &mut Disk, name: &str| {
        if disk.dead || disk.failing {
            return READ_FAILED;
        }
        let content = &disk.files[name].now;
        let rest = content.get(at as usize..).unwrap_or_default();
        let length = rest.len().min(into.len());
        into[..length].copy_from_slice(&rest[..length]);
        into[length..].fill(0);
        match length == into.len() {
            true => OK,
            false => SHORT_READ,
        }
    };
    unsafe { with(file, read) }
}

unsafe extern "C" fn write(file: *mut File, from: *const c_void, length: c_int, at: i64) -> c_int {
    let from = unsafe { slice::from_raw_parts(from.cast::<u8>(), length as usize) };
    let write = |disk: &mut Disk, name: &str| {
        let plan = disk.meet(Operation::Write);
        let content = disk.files.get_mut(name).unwrap();
        match plan {
            Plan::Nothing => {
                content.write(at as usize, from);
                OK
            }
            Plan::Fail(Fault::Half) => {
                content.write(at as usize, &from[..from.len() / 2]);
                WRITE_FAILED
            }
            Plan::Fail(Fault::Full) => FULL,
            _ => WRITE_FAILED,
        }
    };
    unsafe { with(file, write) }
}

unsafe extern "C" fn truncate(file: *mut File, length: i64) -> c_int {
    let truncate = |disk: &mut Disk, name: &str| match disk.meet(Operation::Truncate) {
        Plan::Nothing => {
            disk.files.get_mut(name).unwrap().truncate(length as usize);
            OK
        }
        _ => TRUNCATE_FAILED,
    };
    unsafe { with(file, truncate) }
}

unsafe extern "C" fn sync(file: *mut File, _: c_int) -> c_int {
    let sync = |disk: &mut Disk, name: &str| {
        let plan = disk.meet(Operation::Sync);
        let content = disk.files.get_mut(name).unwrap();
        match plan {
            Plan::Nothing => {
                content.sync();
                OK
            }
            Plan::Fail(Fault::Lost) => {
                content.unsynced.clear();
                SYNC_FAILED
            }
            _ => SYNC_FAILED,
        }
    };
    unsafe { with(file, sync) }
}

unsafe extern "C" fn size(file: *mut File, into: *mut i64) -> c_int {
    let length = unsafe { with(file, |disk, name| disk.files[name].now.len()) };
    unsafe { *into = length as i64 };
    OK
}

/// There is one connection.
unsafe extern "C" fn lock(_: *mut File, _: c_int) -> c_int {
    OK
}

unsafe extern "C" fn reserved(_: *mut File, into: *mut c_int) -> c_int {
    unsafe { *into = 0 };
    OK
}

unsafe extern "C" fn control(_: *mut File, _: c_int, _: *mut c_void) -> c_int {
    NOT_FOUND
}

unsafe extern "C" fn sector(_: *mut File) -> c_int {
    4096
}

unsafe extern "C" fn device(_: *mut File) -> c_int {
    POWERSAFE_OVERWRITE
}

unsafe extern "C" fn delete(_: *mut Vfs, name: *const c_char, sync_folder: c_int) -> c_int {
    let name = unsafe { path(name) };
    disk(|disk| {
        let plan = disk.meet(Operation::Delete);
        let Some(content) = disk.files.get_mut(&name) else {
            return OK;
        };
        match plan {
            Plan::Nothing => {
                content.unlink();
                if sync_folder != 0 {
                    content.old = None;
                }
                OK
            }
            Plan::Cut | Plan::Fail(Fault::Lost) => {
                content.unlink();
                FOLDER_SYNC_FAILED
            }
            Plan::Fail(_) => DELETE_FAILED,
        }
    })
}

unsafe extern "C" fn access(_: *mut Vfs, name: *const c_char, _: c_int, into: *mut c_int) -> c_int {
    let name = unsafe { path(name) };
    let there = disk(|disk| disk.files.get(&name).is_some_and(|content| content.there));
    unsafe { *into = there.into() };
    OK
}

unsafe extern "C" fn full_path(
    _: *mut Vfs,
    name: *const c_char,
    room: c_int,
    into: *mut c_char,
) -> c_int {
    let bytes = unsafe { CStr::from_ptr(name) }.to_bytes_with_nul();
    if bytes.len() > room as usize {
        return CANNOT_OPEN;
    }
    unsafe { ptr::copy_nonoverlapping(bytes.as_ptr().cast(), into, bytes.len()) };
    OK
}

unsafe extern "C" fn randomness(_: *mut Vfs, length: c_int, into: *mut c_char) -> c_int {
    let mut random = Random::new(disk(|disk| disk.made.values().sum()));
    let into = unsafe { slice::from_raw_parts_mut(into.cast::<u8>(), length as usize) };
    into.iter_mut().for_each(|byte| *byte = random.next() as u8);
    length
}

unsafe extern "C" fn sleep(_: *mut Vfs, microseconds: c_int) -> c_int {
    microseconds
}

/// The Julian day 2,461,362.5 is 2026-11-18.
unsafe extern "C" fn time(_: *mut Vfs, into: *mut c_double) -> c_int {
    unsafe { *into = 2_461_362.5 };
    OK
}

unsafe extern "C" fn last_error(_: *mut Vfs, _: c_int, _: *mut c_char) -> c_int {
    0
}
