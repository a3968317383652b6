/* What src/sqlite.rs declares, against sqlite3.h. header.rs holds this list to src/sqlite.rs and compiles it. */
#include <sqlite3.h>
#include <stddef.h>

typedef void (*destructor)(void *);
typedef int (*busy_handler)(void *, int);
typedef int (*exec_callback)(void *, int, char **, char **);
_Static_assert(sizeof(sqlite3_int64) == 8 && (sqlite3_int64)-1 < 0, "sqlite3_int64 is i64");

/* tests/breaking/disk.rs has the parts of version 1 */
_Static_assert(offsetof(sqlite3_io_methods, xShmMap) == 104, "sqlite3_io_methods");
_Static_assert(offsetof(sqlite3_vfs, xCurrentTimeInt64) == 136, "sqlite3_vfs");

#define FUNCTION(name, result, ...) result (*const declared_##name)(__VA_ARGS__) = name
#define CONSTANT(name, value) _Static_assert(name == value, #name)

FUNCTION(sqlite3_libversion_number, int, void);
FUNCTION(sqlite3_open_v2, int, const char *, sqlite3 **, int, const char *);
FUNCTION(sqlite3_close, int, sqlite3 *);
FUNCTION(sqlite3_exec, int, sqlite3 *, const char *, exec_callback, void *, char **);
FUNCTION(sqlite3_extended_errcode, int, sqlite3 *);
FUNCTION(sqlite3_errmsg, const char *, sqlite3 *);
FUNCTION(sqlite3_errstr, const char *, int);
FUNCTION(sqlite3_get_autocommit, int, sqlite3 *);
FUNCTION(sqlite3_busy_handler, int, sqlite3 *, busy_handler, void *);
FUNCTION(sqlite3_prepare_v2, int, sqlite3 *, const char *, int, sqlite3_stmt **, const char **);
FUNCTION(sqlite3_step, int, sqlite3_stmt *);
FUNCTION(sqlite3_reset, int, sqlite3_stmt *);
FUNCTION(sqlite3_finalize, int, sqlite3_stmt *);
FUNCTION(sqlite3_clear_bindings, int, sqlite3_stmt *);
FUNCTION(sqlite3_bind_int64, int, sqlite3_stmt *, int, sqlite3_int64);
FUNCTION(sqlite3_bind_text, int, sqlite3_stmt *, int, const char *, int, destructor);
FUNCTION(sqlite3_bind_blob, int, sqlite3_stmt *, int, const void *, int, destructor);
FUNCTION(sqlite3_column_count, int, sqlite3_stmt *);
FUNCTION(sqlite3_column_type, int, sqlite3_stmt *, int);
FUNCTION(sqlite3_column_int64, sqlite3_int64, sqlite3_stmt *, int);
FUNCTION(sqlite3_column_text, const unsigned char *, sqlite3_stmt *, int);
FUNCTION(sqlite3_column_blob, const void *, sqlite3_stmt *, int);
FUNCTION(sqlite3_column_bytes, int, sqlite3_stmt *, int);

CONSTANT(SQLITE_OK, 0);
CONSTANT(SQLITE_ERROR, 1);
CONSTANT(SQLITE_BUSY, 5);
CONSTANT(SQLITE_READONLY, 8);
CONSTANT(SQLITE_IOERR, 10);
CONSTANT(SQLITE_CORRUPT, 11);
CONSTANT(SQLITE_FULL, 13);
CONSTANT(SQLITE_CANTOPEN, 14);
CONSTANT(SQLITE_TOOBIG, 18);
CONSTANT(SQLITE_MISUSE, 21);
CONSTANT(SQLITE_NOTADB, 26);
CONSTANT(SQLITE_ROW, 100);
CONSTANT(SQLITE_DONE, 101);
CONSTANT(SQLITE_IOERR_WRITE, 778);
CONSTANT(SQLITE_IOERR_FSYNC, 1034);
CONSTANT(SQLITE_INTEGER, 1);
CONSTANT(SQLITE_TEXT, 3);
CONSTANT(SQLITE_BLOB, 4);
CONSTANT(SQLITE_NULL, 5);
CONSTANT(SQLITE_OPEN_READWRITE, 2);
CONSTANT(SQLITE_OPEN_CREATE, 4);
