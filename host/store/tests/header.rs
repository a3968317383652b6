//! The declarations of `src/sqlite.rs` are those of the system's `sqlite3.h`:
//! each is, in C's words, a line of `header.c`, and a C compiler takes it.

use std::process::Command;

const RUST: &str = include_str!("../src/sqlite.rs");
const C: &str = include_str!("header.c");

/// A type of the declarations in C.
fn in_c(rust: &str) -> String {
    let named = match rust {
        "c_int" => "int",
        "c_char" => "char",
        "c_uchar" => "unsigned char",
        "c_void" => "void",
        "i64" => "sqlite3_int64",
        other => other,
    };
    if let Some(to) = rust.strip_prefix("*mut ") {
        return pointer(&in_c(to));
    }
    if let Some(to) = rust.strip_prefix("*const ") {
        return pointer(&format!("const {}", in_c(to)));
    }
    named.to_owned()
}

fn pointer(to: &str) -> String {
    let blank = if to.ends_with('*') { "" } else { " " };
    format!("{to}{blank}*")
}

/// The line of `header.c` for `name(argument: type, ...) -> type`.
fn line_for(declaration: &str) -> String {
    let (name, rest) = declaration.split_once('(').unwrap();
    let (arguments, result) = rest.split_once(") -> ").unwrap();
    let types = arguments.split(',').filter_map(|argument| {
        let (_, kind) = argument.split_once(':')?;
        Some(in_c(kind.trim()))
    });
    let types: Vec<_> = types.collect();
    let types = match types.is_empty() {
        true => "void".to_owned(),
        false => types.join(", "),
    };
    format!("FUNCTION({name}, {}, {types});", in_c(result))
}

/// All lines that the declarations ask for.
fn expected() -> Vec<String> {
    // one blank for each white space, so that it doesn't matter where a line is broken
    let text = RUST.split_whitespace().collect::<Vec<_>>().join(" ");
    let functions = text.split("pub fn sqlite3_").skip(1).map(|rest| {
        let declaration = rest.split(';').next().unwrap();
        line_for(&format!("sqlite3_{declaration}"))
    });
    let constants = text.split("pub const SQLITE_").skip(1).map(|rest| {
        let (name, value) = rest.split_once(": c_int = ").unwrap();
        let value = value.split(';').next().unwrap();
        format!("CONSTANT(SQLITE_{name}, {value});")
    });
    functions.chain(constants).collect()
}

#[test]
fn listed_in_c() {
    let lines = C
        .lines()
        .filter(|line| line.starts_with("FUNCTION(") || line.starts_with("CONSTANT("));
    assert_eq!(lines.collect::<Vec<_>>(), expected());
}

/// Whether a C compiler takes a text after `sqlite3.h`.
fn compiles(text: &str) -> bool {
    let path = std::env::temp_dir().join(format!("ceromby-header-{}.c", std::process::id()));
    std::fs::write(&path, text).unwrap();
    let flags = ["-std=c11", "-Wall", "-Wextra", "-Werror", "-fsyntax-only"];
    let output = Command::new("cc").args(flags).arg(&path).output().unwrap();
    std::fs::remove_file(&path).unwrap();
    output.status.success()
}

#[test]
fn as_in_the_header() {
    assert!(compiles(C), "cc doesn't take header.c");
    // another argument, result or value isn't taken
    for (right, wrong) in [
        (
            "sqlite3_step, int, sqlite3_stmt *",
            "sqlite3_step, int, sqlite3 *",
        ),
        ("sqlite3_errmsg, const char *", "sqlite3_errmsg, int"),
        ("SQLITE_IOERR_WRITE, 778", "SQLITE_IOERR_WRITE, 777"),
    ] {
        assert!(C.contains(right));
        assert!(!compiles(&C.replace(right, wrong)), "cc takes {wrong}");
    }
}
