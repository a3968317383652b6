//! Stored files. With CEROMBY_STORE=1 in the environment they are made anew.

use std::fs;
use std::path::Path;

/// Fails unless a file below tests/pictures has just these bytes.
pub fn compare(file: &str, made: &str) {
    let path = Path::new(env!("CARGO_MANIFEST_DIR"))
        .join("tests/pictures")
        .join(file);
    if std::env::var_os("CEROMBY_STORE").is_some() {
        fs::write(&path, made).expect("the file can be written");
    }
    let stored = fs::read_to_string(&path).expect("the file is there");
    let differs = stored
        .lines()
        .zip(made.lines())
        .find(|(old, new)| old != new);
    assert!(
        stored == made,
        "{file} differs from what is made now, first in (stored, made): {differs:?}"
    );
}
