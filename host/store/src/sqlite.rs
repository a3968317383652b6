//! The functions of SQLite that the store calls, and a safe wrapper over them.
//! All `unsafe` of the crate is here. `tests/header.rs` holds the declarations to
//! `sqlite3.h`.
#![allow(unsafe_code)]

use std::cell::Cell;
use std::ffi::{c_int, c_void, CStr, CString};
use std::fmt;
use std::marker::PhantomData;
use std::os::unix::ffi::OsStringExt;
use std::path::{self, Path};
use std::ptr::{self, NonNull};
use std::rc::Rc;
use std::slice;
use std::str;
use std::thread;
use std::time::{Duration, Instant};

/// As sqlite3.h has them.
#[allow(non_camel_case_types)]
mod c {
    use std::ffi::{c_char, c_int, c_uchar, c_void};

    pub enum sqlite3 {}
    pub enum sqlite3_stmt {}
    pub type destructor = Option<unsafe extern "C" fn(*mut c_void)>;
    pub type busy_handler = Option<unsafe extern "C" fn(*mut c_void, c_int) -> c_int>;
    pub type exec_callback = Option<
        unsafe extern "C" fn(*mut c_void, c_int, *mut *mut c_char, *mut *mut c_char) -> c_int,
    >;

    pub const SQLITE_OK: c_int = 0;
    pub const SQLITE_ERROR: c_int = 1;
    pub const SQLITE_BUSY: c_int = 5;
    pub const SQLITE_READONLY: c_int = 8;
    pub const SQLITE_IOERR: c_int = 10;
    pub const SQLITE_CORRUPT: c_int = 11;
    pub const SQLITE_FULL: c_int = 13;
    pub const SQLITE_CANTOPEN: c_int = 14;
    pub const SQLITE_TOOBIG: c_int = 18;
    pub const SQLITE_MISUSE: c_int = 21;
    pub const SQLITE_NOTADB: c_int = 26;
    pub const SQLITE_ROW: c_int = 100;
    pub const SQLITE_DONE: c_int = 101;
    pub const SQLITE_IOERR_WRITE: c_int = 778;
    pub const SQLITE_IOERR_FSYNC: c_int = 1034;
    pub const SQLITE_INTEGER: c_int = 1;
    pub const SQLITE_TEXT: c_int = 3;
    pub const SQLITE_BLOB: c_int = 4;
    pub const SQLITE_NULL: c_int = 5;
    pub const SQLITE_OPEN_READWRITE: c_int = 2;
    pub const SQLITE_OPEN_CREATE: c_int = 4;

    extern "C" {
        pub fn sqlite3_libversion_number() -> c_int;
        pub fn sqlite3_open_v2(
            filename: *const c_char,
            db: *mut *mut sqlite3,
            flags: c_int,
            vfs: *const c_char,
        ) -> c_int;
        pub fn sqlite3_close(db: *mut sqlite3) -> c_int;
        pub fn sqlite3_exec(
            db: *mut sqlite3,
            sql: *const c_char,
            callback: exec_callback,
            argument: *mut c_void,
            message: *mut *mut c_char,
        ) -> c_int;
        pub fn sqlite3_extended_errcode(db: *mut sqlite3) -> c_int;
        pub fn sqlite3_errmsg(db: *mut sqlite3) -> *const c_char;
        pub fn sqlite3_errstr(code: c_int) -> *const c_char;
        pub fn sqlite3_get_autocommit(db: *mut sqlite3) -> c_int;
        pub fn sqlite3_busy_handler(
            db: *mut sqlite3,
            handler: busy_handler,
            argument: *mut c_void,
        ) -> c_int;
        pub fn sqlite3_prepare_v2(
            db: *mut sqlite3,
            sql: *const c_char,
            length: c_int,
            statement: *mut *mut sqlite3_stmt,
            tail: *mut *const c_char,
        ) -> c_int;
        pub fn sqlite3_step(statement: *mut sqlite3_stmt) -> c_int;
        pub fn sqlite3_reset(statement: *mut sqlite3_stmt) -> c_int;
        pub fn sqlite3_finalize(statement: *mut sqlite3_stmt) -> c_int;
        pub fn sqlite3_clear_bindings(statement: *mut sqlite3_stmt) -> c_int;
        pub fn sqlite3_bind_int64(statement: *mut sqlite3_stmt, at: c_int, value: i64) -> c_int;
        pub fn sqlite3_bind_text(
            statement: *mut sqlite3_stmt,
            at: c_int,
            value: *const c_char,
            length: c_int,
            destroy: destructor,
        ) -> c_int;
        pub fn sqlite3_bind_blob(
            statement: *mut sqlite3_stmt,
            at: c_int,
            value: *const c_void,
            length: c_int,
            destroy: destructor,
        ) -> c_int;
        pub fn sqlite3_column_count(statement: *mut sqlite3_stmt) -> c_int;
        pub fn sqlite3_column_type(statement: *mut sqlite3_stmt, column: c_int) -> c_int;
        pub fn sqlite3_column_int64(statement: *mut sqlite3_stmt, column: c_int) -> i64;
        pub fn sqlite3_column_text(statement: *mut sqlite3_stmt, column: c_int) -> *const c_uchar;
        pub fn sqlite3_column_blob(statement: *mut sqlite3_stmt, column: c_int) -> *const c_void;
        pub fn sqlite3_column_bytes(statement: *mut sqlite3_stmt, column: c_int) -> c_int;
    }
}

/// What SQLite answered in place of a success.
#[derive(Clone, PartialEq, Eq, Debug)]
pub struct Error {
    /// Its extended result code.
    pub code: i32,
    /// Its words.
    pub message: String,
}

impl Error {
    fn new(code: c_int, message: &str) -> Error {
        Error {
            code,
            message: message.to_owned(),
        }
    }

    /// By the code alone.
    fn of(code: c_int) -> Error {
        // SAFETY: any code has words, which are never freed.
        let words = unsafe { CStr::from_ptr(c::sqlite3_errstr(code)) };
        Error::new(code, &words.to_string_lossy())
    }

    fn primary(&self) -> c_int {
        self.code & 0xff
    }

    /// A lock didn't come in time.
    pub fn is_busy(&self) -> bool {
        self.primary() == c::SQLITE_BUSY
    }

    /// The file is no database, or a damaged one, or hasn't what a statement that is
    /// right asks for.
    pub fn is_damage(&self) -> bool {
        [c::SQLITE_CORRUPT, c::SQLITE_NOTADB, c::SQLITE_ERROR].contains(&self.primary())
    }

    /// The file can't be written.
    pub fn is_read_only(&self) -> bool {
        self.primary() == c::SQLITE_READONLY
    }

    /// The file can't be opened.
    pub fn is_unopened(&self) -> bool {
        self.primary() == c::SQLITE_CANTOPEN
    }

    /// A commit that gives this has not been made: the lock didn't come, or a file
    /// couldn't be written or synced, and that comes before the journal's end.
    pub fn before_commit(&self) -> bool {
        let early = [c::SQLITE_IOERR_WRITE, c::SQLITE_IOERR_FSYNC];
        self.is_busy() || self.primary() == c::SQLITE_FULL || early.contains(&self.code)
    }
}

impl fmt::Display for Error {
    fn fmt(&self, f: &mut fmt::Formatter) -> fmt::Result {
        let Error { code, message } = self;
        let disk = self.primary() == c::SQLITE_IOERR || self.primary() == c::SQLITE_FULL;
        let of = if disk { "the disk: " } else { "" };
        write!(f, "{of}{message} (SQLite {code})")
    }
}

impl std::error::Error for Error {}

/// How long a lock is waited for. SQLite's own handler sleeps longer and longer,
/// and so hardly ever meets the moment between two calls of another process.
#[derive(Clone, Copy)]
struct Patience {
    limit: Duration,
    begun: Instant,
}

/// Called by SQLite, with how often it was called before for the same lock.
unsafe extern "C" fn wait(patience: *mut c_void, before: c_int) -> c_int {
    // SAFETY: `Connection::open` handed it in; it lives as long as the handle, and
    // no other reference to it is made than this and `set_lock_timeout`'s.
    let cell = unsafe { &*patience.cast::<Cell<Patience>>() };
    let mut patience = cell.get();
    if before == 0 {
        patience.begun = Instant::now();
        cell.set(patience);
    }
    if patience.begun.elapsed() >= patience.limit {
        return 0;
    }
    thread::sleep(Duration::from_micros(250));
    1
}

/// An open database; closed with its last statement.
struct Handle {
    db: NonNull<c::sqlite3>,
    patience: Box<Cell<Patience>>,
}

impl Handle {
    /// The error of the last function that failed.
    fn error(&self) -> Error {
        // SAFETY: the handle is open; the words are copied before another call.
        unsafe {
            let words = CStr::from_ptr(c::sqlite3_errmsg(self.db.as_ptr()));
            let code = c::sqlite3_extended_errcode(self.db.as_ptr());
            Error::new(code, &words.to_string_lossy())
        }
    }

    fn check(&self, code: c_int) -> Result<(), Error> {
        match code {
            c::SQLITE_OK => Ok(()),
            _ => Err(self.error()),
        }
    }
}

impl Drop for Handle {
    fn drop(&mut self) {
        // SAFETY: every statement has the handle, so none is left.
        unsafe { c::sqlite3_close(self.db.as_ptr()) };
    }
}

/// Whether [`Connection::open`] makes a file that isn't there.
#[derive(Clone, Copy, PartialEq, Eq, Debug)]
pub enum Missing {
    /// An error.
    Refused,
    /// It is made.
    Created,
}

/// An open database.
pub struct Connection {
    handle: Rc<Handle>,
}

impl Connection {
    /// Opens a file. It is named by its absolute path: another one might mean a
    /// database in memory or a URI.
    pub fn open(path: &Path, missing: Missing) -> Result<Connection, Error> {
        let cannot = || Error::of(c::SQLITE_CANTOPEN);
        let path = path::absolute(path).map_err(|_| cannot())?;
        let name = CString::new(path.into_os_string().into_vec()).map_err(|_| cannot())?;
        Connection::named(&name, missing)
    }

    /// A database in memory.
    pub fn in_memory() -> Result<Connection, Error> {
        Connection::named(c":memory:", Missing::Created)
    }

    fn named(name: &CStr, missing: Missing) -> Result<Connection, Error> {
        let flags = match missing {
            Missing::Refused => c::SQLITE_OPEN_READWRITE,
            Missing::Created => c::SQLITE_OPEN_READWRITE | c::SQLITE_OPEN_CREATE,
        };
        let mut db = ptr::null_mut();
        // SAFETY: a text that ends in a zero, and a place for the handle.
        let code = unsafe { c::sqlite3_open_v2(name.as_ptr(), &mut db, flags, ptr::null()) };
        // without memory for a handle there is none
        let db = NonNull::new(db).ok_or_else(|| Error::of(code))?;
        let patience = Box::new(Cell::new(Patience {
            limit: Duration::ZERO,
            begun: Instant::now(),
        }));
        // closed also where it couldn't be opened
        let handle = Rc::new(Handle { db, patience });
        handle.check(code)?;
        let cell = ptr::from_ref(&*handle.patience).cast_mut().cast();
        // SAFETY: the cell lives as long as the handle.
        handle.check(unsafe { c::sqlite3_busy_handler(db.as_ptr(), Some(wait), cell) })?;
        Ok(Connection { handle })
    }

    /// How long a lock is waited for; at first not at all.
    pub fn set_lock_timeout(&self, limit: Duration) {
        let patience = self.handle.patience.get();
        self.handle.patience.set(Patience { limit, ..patience });
    }

    /// How long it is.
    pub fn lock_timeout(&self) -> Duration {
        self.handle.patience.get().limit
    }

    /// Runs statements that are given nothing and give nothing.
    pub fn execute(&self, sql: &str) -> Result<(), Error> {
        let sql = CString::new(sql).map_err(|_| Error::of(c::SQLITE_MISUSE))?;
        let (db, none) = (self.handle.db.as_ptr(), ptr::null_mut());
        // SAFETY: a text that ends in a zero; no callback, and no place for words.
        let code = unsafe { c::sqlite3_exec(db, sql.as_ptr(), None, none, ptr::null_mut()) };
        self.handle.check(code)
    }

    /// A statement to be run as often as is wanted; what comes after its first
    /// semicolon is left out.
    pub fn prepare(&self, sql: &str) -> Result<Statement, Error> {
        let length = c_int::try_from(sql.len()).map_err(|_| Error::of(c::SQLITE_TOOBIG))?;
        let mut statement = ptr::null_mut();
        // SAFETY: the text has that length; a place for the statement, none for the rest.
        let code = unsafe {
            c::sqlite3_prepare_v2(
                self.handle.db.as_ptr(),
                sql.as_ptr().cast(),
                length,
                &mut statement,
                ptr::null_mut(),
            )
        };
        self.handle.check(code)?;
        // an empty text gives no statement
        let statement = NonNull::new(statement).ok_or_else(|| Error::of(c::SQLITE_MISUSE))?;
        let handle = Rc::clone(&self.handle);
        Ok(Statement { statement, handle })
    }

    /// Whether no transaction is open.
    pub fn is_idle(&self) -> bool {
        // SAFETY: the handle is open.
        unsafe { c::sqlite3_get_autocommit(self.handle.db.as_ptr()) != 0 }
    }
}

/// The library's version, 3,040,001 for 3.40.1.
pub fn version() -> i32 {
    // SAFETY: a plain value out.
    unsafe { c::sqlite3_libversion_number() }
}

/// What a column holds.
#[derive(Clone, Copy, PartialEq, Eq, Debug)]
pub enum Value<'a> {
    /// Nothing.
    Null,
    /// A whole number.
    Integer(i64),
    /// A text.
    Text(&'a str),
    /// Bytes.
    Blob(&'a [u8]),
}

/// A prepared statement.
pub struct Statement {
    statement: NonNull<c::sqlite3_stmt>,
    handle: Rc<Handle>,
}

impl Statement {
    /// Runs it with these values to its end; rows that it gives are left out.
    pub fn run(&mut self, values: &[Value]) -> Result<(), Error> {
        let mut rows = self.rows(values)?;
        while rows.step()?.is_some() {}
        Ok(())
    }

    /// Its rows with these values.
    pub fn rows<'a>(&'a mut self, values: &[Value<'a>]) -> Result<Rows<'a>, Error> {
        // nothing is left of a run whose rows were forgotten
        self.clear();
        let rows = Rows {
            statement: self,
            values: PhantomData,
        };
        for (at, value) in (1..).zip(values) {
            rows.statement.bind(at, value)?;
        }
        Ok(rows)
    }

    /// The value isn't copied: it is to live until the bindings are cleared.
    fn bind(&self, at: c_int, value: &Value) -> Result<(), Error> {
        let statement = self.statement.as_ptr();
        let too_big = |_| Error::of(c::SQLITE_TOOBIG);
        let code = match value {
            // what isn't bound is null
            Value::Null => c::SQLITE_OK,
            // SAFETY: a plain value.
            Value::Integer(number) => unsafe { c::sqlite3_bind_int64(statement, at, *number) },
            Value::Text(text) => {
                let length = c_int::try_from(text.len()).map_err(too_big)?;
                let start = text.as_ptr().cast();
                // SAFETY: the text has that length, and outlives `Rows`, which clears it.
                unsafe { c::sqlite3_bind_text(statement, at, start, length, None) }
            }
            Value::Blob(bytes) => {
                let length = c_int::try_from(bytes.len()).map_err(too_big)?;
                let start = bytes.as_ptr().cast();
                // SAFETY: as for a text. No slice begins at null, which would be bound as null.
                unsafe { c::sqlite3_bind_blob(statement, at, start, length, None) }
            }
        };
        self.handle.check(code)
    }

    fn clear(&mut self) {
        let statement = self.statement.as_ptr();
        // SAFETY: the statement is there. What a reset answers is the last step's error.
        unsafe {
            c::sqlite3_reset(statement);
            c::sqlite3_clear_bindings(statement);
        }
    }
}

impl Drop for Statement {
    fn drop(&mut self) {
        // SAFETY: the statement is there, and its handle is still open.
        unsafe { c::sqlite3_finalize(self.statement.as_ptr()) };
    }
}

/// The rows of a statement that runs, and the values that it was given.
pub struct Rows<'a> {
    statement: &'a mut Statement,
    values: PhantomData<Value<'a>>,
}

impl Rows<'_> {
    /// The next row.
    pub fn step(&mut self) -> Result<Option<Row<'_>>, Error> {
        // SAFETY: the statement is there, and its values still are.
        match unsafe { c::sqlite3_step(self.statement.statement.as_ptr()) } {
            c::SQLITE_ROW => Ok(Some(Row {
                statement: self.statement,
            })),
            c::SQLITE_DONE => Ok(None),
            _ => Err(self.statement.handle.error()),
        }
    }
}

impl Drop for Rows<'_> {
    fn drop(&mut self) {
        self.statement.clear();
    }
}

/// One row, until the next step.
pub struct Row<'a> {
    statement: &'a Statement,
}

impl<'a> Row<'a> {
    /// All that it holds, column by column.
    pub fn values(&self) -> Result<Vec<Value<'a>>, Error> {
        // SAFETY: the statement is there.
        let columns = unsafe { c::sqlite3_column_count(self.statement.statement.as_ptr()) };
        (0..columns).map(|column| self.value(column)).collect()
    }

    fn value(&self, column: c_int) -> Result<Value<'a>, Error> {
        let statement = self.statement.statement.as_ptr();
        let wrong = || Error::new(c::SQLITE_CORRUPT, "a column has another type, or no text");
        // SAFETY: the statement has a row, and the column is one of its own. Text and bytes
        // are valid until the next step, which `'a` doesn't outlive; the length is asked for
        // after them, so that it is theirs.
        unsafe {
            match c::sqlite3_column_type(statement, column) {
                c::SQLITE_NULL => Ok(Value::Null),
                c::SQLITE_INTEGER => Ok(Value::Integer(c::sqlite3_column_int64(statement, column))),
                c::SQLITE_TEXT => {
                    let start = c::sqlite3_column_text(statement, column);
                    let bytes = self.bytes(start, column)?;
                    let text = str::from_utf8(bytes).map_err(|_| wrong())?;
                    Ok(Value::Text(text))
                }
                c::SQLITE_BLOB => {
                    let start = c::sqlite3_column_blob(statement, column);
                    Ok(Value::Blob(self.bytes(start.cast(), column)?))
                }
                _ => Err(wrong()),
            }
        }
    }

    /// # Safety
    /// `start` is what SQLite gave for that column of the row.
    unsafe fn bytes(&self, start: *const u8, column: c_int) -> Result<&'a [u8], Error> {
        let statement = self.statement.statement.as_ptr();
        // SAFETY: the caller sees to it.
        unsafe {
            let length = c::sqlite3_column_bytes(statement, column);
            match usize::try_from(length) {
                Ok(0) => Ok(&[]),
                Ok(length) if !start.is_null() => Ok(slice::from_raw_parts(start, length)),
                _ => Err(self.statement.handle.error()),
            }
        }
    }
}
