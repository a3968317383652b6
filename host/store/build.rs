//! Links the system's SQLite, and says which package is missing where it isn't
//! found.

use std::env;
use std::fs;
use std::io;
use std::path::PathBuf;
use std::process::{exit, Command, Stdio};

fn main() {
    println!("cargo:rerun-if-changed=build.rs");
    println!("cargo:rerun-if-env-changed=LIBRARY_PATH");
    match links() {
        Ok(true) => println!("cargo:rustc-link-lib=sqlite3"),
        Ok(false) => fail("SQLite was not found by cc -lsqlite3. Install Debian's libsqlite3-dev"),
        Err(error) => fail(&format!("cc can't be run: {error}")),
    }
}

/// Whether a C program can be linked with SQLite.
fn links() -> io::Result<bool> {
    let folder = PathBuf::from(env::var_os("OUT_DIR").unwrap_or_default());
    let program = folder.join("linked.c");
    fs::write(
        &program,
        "extern int sqlite3_libversion_number(void);\n\
         int main(void) { return sqlite3_libversion_number() == 0; }\n",
    )?;
    let cc = Command::new("cc")
        .arg(&program)
        .args(["-lsqlite3", "-o"])
        .arg(folder.join("linked"))
        .stderr(Stdio::null())
        .status()?;
    Ok(cc.success())
}

fn fail(why: &str) -> ! {
    eprintln!("ceromby-store: {why}");
    exit(1)
}
