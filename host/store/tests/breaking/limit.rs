//! A limit on the size of files, set by the shell: the disk is full for real.

use std::process::{Command, Stdio};

use ceromby_store::Options;

use crate::children::command;
use crate::support::{account, send, text, Folder, Mirror};

const SEED: u64 = 5;

/// With so many blocks of 512 bytes; the number of calls that were made.
fn limited(folder: &Folder, blocks: u64) -> Result<u64, String> {
    let path = folder.file("store");
    let name = path.to_str().ok_or("a path that is text")?;
    let seed = SEED.to_string();
    let child = command(&["child", "limited", name, &seed, "1000000"]);
    let limit = format!("ulimit -f {blocks}; trap '' XFSZ; exec \"$@\"");
    let mut shell = Command::new("sh");
    shell
        .args(["-c", &limit, "sh"])
        .arg(child.get_program())
        .args(child.get_args());
    let output = shell
        .stderr(Stdio::inherit())
        .output()
        .map_err(|error| error.to_string())?;
    let said = String::from_utf8_lossy(&output.stdout);
    if !output.status.success() {
        return Err(format!("with {blocks} blocks: {said}"));
    }
    let made = said.split(' ').next().and_then(|word| word.parse().ok());
    made.ok_or_else(|| format!("with {blocks} blocks it said {said}"))
}

/// Ever larger limits on one store.
pub fn run(limits: u64) -> Result<(), String> {
    let folder = Folder::new();
    let mut mirror = Mirror::new(SEED);
    let mut blocks = 160;
    for _ in 0..limits {
        let made = limited(&folder, blocks)?;
        let mut store = Options::new().open(folder.file("store")).map_err(text)?;
        mirror.follow(&mut store)?;
        if mirror.calls != made {
            return Err(format!("{} calls in place of {made}", mirror.calls));
        }
        blocks += 64;
    }
    let mut store = Options::new().open(folder.file("store")).map_err(text)?;
    for index in mirror.calls..mirror.calls + 20 {
        send(&mut store, SEED, index).map(drop).map_err(text)?;
    }
    mirror.follow(&mut store)?;
    account(&mut store)?;
    println!(
        "limit: {limits} limits on the file's size met, {} calls; none lost, none twice",
        mirror.calls
    );
    Ok(())
}
