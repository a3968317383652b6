//! Ctrl-C, as a flag that a call looks at between two rounds and that ends the
//! wait for a line.
//!
//! The standard library has no signals, so three functions of the C library are
//! declared here. This is the only module with unsafe code.
#![allow(unsafe_code)]

use std::ffi::{c_int, c_short, c_ulong};
use std::fs::File;
use std::io::{self, ErrorKind, Read};
use std::os::fd::AsRawFd;
use std::sync::atomic::{AtomicBool, Ordering};

static PRESSED: AtomicBool = AtomicBool::new(false);

const SIGINT: c_int = 2;
/// What a signal does by itself: it ends the program.
const SIG_DFL: usize = 0;
/// The handler that ignores a signal.
const SIG_IGN: usize = 1;
/// Something can be read.
const POLLIN: c_short = 1;
/// How long a Ctrl-C between a look at the flag and the wait goes unseen.
const MILLISECONDS: c_int = 100;

/// A file that is waited for.
#[repr(C)]
struct Awaited {
    file: c_int,
    events: c_short,
    found: c_short,
}

extern "C" {
    /// Sets a handler, a function or a number, and gives the one before.
    fn signal(signal: c_int, handler: usize) -> usize;
    /// Sends the program a signal.
    fn raise(signal: c_int) -> c_int;
    /// Waits for files, so many milliseconds at most; a signal ends it.
    fn poll(files: *mut Awaited, count: c_ulong, milliseconds: c_int) -> c_int;
}

/// Raises the flag. Where it is up already, nothing looks at it: a file that is
/// loaded doesn't end, for one. Then the program ends.
extern "C" fn note(_: c_int) {
    if PRESSED.swap(true, Ordering::Relaxed) {
        // SAFETY: a handler may call both; they take plain numbers.
        unsafe {
            signal(SIGINT, SIG_DFL);
            raise(SIGINT);
        }
    }
}

/// From now on Ctrl-C raises the flag. A program that was started with the signal
/// ignored goes on ignoring it.
pub fn watch() {
    let handler: extern "C" fn(c_int) = note;
    // SAFETY: the handler has C's signature and does only what one may do at any
    // time; the call takes plain numbers.
    unsafe {
        if signal(SIGINT, handler as usize) == SIG_IGN {
            signal(SIGINT, SIG_IGN);
        }
    }
}

/// Whether Ctrl-C was pressed since this was last asked.
pub fn pressed() -> bool {
    PRESSED.swap(false, Ordering::Relaxed)
}

/// A file whose reads end with [`ErrorKind::Interrupted`] when Ctrl-C is pressed
/// before anything comes. The flag stays up.
#[derive(Debug)]
pub struct Patient(pub File);

impl Read for Patient {
    fn read(&mut self, buffer: &mut [u8]) -> io::Result<usize> {
        while !self.is_ready() {
            if PRESSED.load(Ordering::Relaxed) {
                return Err(ErrorKind::Interrupted.into());
            }
        }
        self.0.read(buffer)
    }
}

impl Patient {
    /// Whether a read wouldn't wait, be it for an error.
    fn is_ready(&self) -> bool {
        let mut awaited = Awaited {
            file: self.0.as_raw_fd(),
            events: POLLIN,
            found: 0,
        };
        // SAFETY: it is one struct as C has it, which lives through the call.
        let found = unsafe { poll(&mut awaited, 1, MILLISECONDS) };
        found > 0 || found < 0 && io::Error::last_os_error().kind() != ErrorKind::Interrupted
    }
}
