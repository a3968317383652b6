//! Links libceromby.a from the repository's crates/ceromby/out, or from the
//! directory that CEROMBY_LIB_DIR names by an absolute path.

use std::env;
use std::path::PathBuf;
use std::process::exit;

fn main() {
    println!("cargo:rerun-if-env-changed=CEROMBY_LIB_DIR");
    let here = PathBuf::from(env::var_os("CARGO_MANIFEST_DIR").expect("set by cargo"));
    let root = here.join("../..");
    let root = root.canonicalize().unwrap_or(root);
    let named = env::var_os("CEROMBY_LIB_DIR").map(PathBuf::from);
    let is_named = named.is_some();
    let directory = named.unwrap_or_else(|| root.join("crates/ceromby/out"));
    if !directory.is_absolute() {
        fail(&format!(
            "CEROMBY_LIB_DIR is {}: name the directory by an absolute path",
            directory.display()
        ));
    }
    let archive = directory.join("libceromby.a");
    println!("cargo:rerun-if-changed={}", archive.display());
    if !archive.is_file() && is_named {
        fail(&format!(
            "CEROMBY_LIB_DIR is {}, which has no libceromby.a. The clone's is made by\n\n    \
             cd {}/crates/ceromby && rt lib",
            directory.display(),
            root.display()
        ));
    }
    if !archive.is_file() {
        fail(&format!(
            "there is no {}. Make it by\n\n    cd {}/crates/ceromby && rt lib\n\n\
             or let CEROMBY_LIB_DIR name the directory that has one.",
            archive.display(),
            root.display()
        ));
    }
    println!("cargo:rustc-link-search=native={}", directory.display());
    println!("cargo:rustc-link-lib=static=ceromby");
}

fn fail(why: &str) -> ! {
    eprintln!("ceromby: {why}");
    exit(1)
}
