//! The program `ceromby`.

use std::process::ExitCode;

fn main() -> ExitCode {
    let words = std::env::args_os().skip(1);
    ceromby_tool::run::program(words).into()
}
