//! `ceromby replay` as it is typed.

use std::fs;
use std::process::Command;

use super::page::data;
use crate::common::{fed, program, Ran, Room};

/// `ceromby replay` with these words, in a folder.
fn replay(room: &Room, words: &[&str], input: &str) -> Ran {
    let mut command = program(&room.0);
    command.arg("replay").args(words);
    fed(command, input)
}

/// SHA-256 as a policy names it.
pub fn sha256_base64(text: &str) -> String {
    let digits = fed(Command::new("sha256sum"), text).out;
    let byte = |at: usize| u8::from_str_radix(&digits[2 * at..2 * at + 2], 16).expect("two digits");
    base64(&(0..32).map(byte).collect::<Vec<u8>>())
}

fn base64(bytes: &[u8]) -> String {
    const LETTERS: &[u8] = b"ABCDEFGHIJKLMNOPQRSTUVWXYZabcdefghijklmnopqrstuvwxyz0123456789+/";
    let mut text = String::new();
    for three in bytes.chunks(3) {
        let bits = (0..3).fold(0, |bits, at| {
            bits << 8 | usize::from(*three.get(at).unwrap_or(&0))
        });
        for at in 0..4 {
            let letter = LETTERS[bits >> (18 - 6 * at) & 63];
            text.push(if at > three.len() { '=' } else { letter.into() });
        }
    }
    text
}

#[test]
fn base64_of_some_bytes() {
    for (bytes, text) in [
        ("", ""),
        ("f", "Zg=="),
        ("fo", "Zm8="),
        ("foo", "Zm9v"),
        ("foob", "Zm9vYg=="),
    ] {
        assert_eq!(base64(bytes.as_bytes()), text);
    }
}

const LIST: &str =
    "fresh 2 1 1 0 100 30 10 20\nbook 0 1\nrounds 4\nsave kept.image\nbook 0 0\nload kept.image\n";

/// From a file and from a pipe; a list with refusals gives its page all the
/// same, and no file is written.
#[test]
fn a_page_is_written() {
    let room = Room::new();
    fs::write(room.0.join("my day.txt"), LIST).unwrap();
    let ran = replay(
        &room,
        &["my day.txt", "--what-if", "STOP 0", "--at", "3"],
        "",
    );
    assert_eq!((ran.status, ran.err.as_str()), (Some(0), ""));
    let named = data(&ran.out);
    assert_eq!(named.get("steps").list().len(), 8);
    let command = "ceromby replay 'my day.txt' --what-if \"stop 0\" --at 3";
    assert_eq!(named.get("command").text(), command);
    assert_eq!(room.files(), ["my day.txt"]);

    for words in [&["-"][..], &[]] {
        let ran = replay(&room, words, LIST);
        assert_eq!((ran.status, ran.err.as_str()), (Some(0), ""));
        let piped = data(&ran.out);
        assert_eq!(piped.get("steps"), named.get("steps"));
        assert_eq!(piped.get("name").text(), "standard input");
        assert_eq!(piped.get("command").text(), "ceromby replay");
    }
}

/// What can't be done is said, and no page is begun.
#[test]
fn what_is_wrong_is_said() {
    let room = Room::new();
    fs::write(room.0.join("day.txt"), LIST).unwrap();
    let rows: [(&[&str], i32, &str); 9] = [
        (
            &["none.txt"],
            3,
            "none.txt can't be read: No such file or directory",
        ),
        (&["day.txt", "day.txt"], 2, "day.txt: one list at a time"),
        (&["day.txt", "--when"], 2, "--when is no option of replay"),
        (
            &["day.txt", "--at", "3"],
            2,
            "--at comes after --what-if CALL",
        ),
        (&["day.txt", "--what-if"], 2, "--what-if needs a call"),
        (
            &["day.txt", "--what-if", "stop 0"],
            2,
            "--what-if \"stop 0\" needs --at STEP",
        ),
        (
            &["day.txt", "--what-if", "rounds 3", "--at", "1"],
            2,
            "--what-if: rounds 3 is no single call",
        ),
        (
            &["day.txt", "--what-if", "halt 3", "--at", "1"],
            2,
            "--what-if: halt is no call",
        ),
        (
            &["day.txt", "--what-if", "stop 0", "--at", "9"],
            2,
            "--at 9: the list has 8 steps",
        ),
    ];
    for (words, status, said) in rows {
        let ran = replay(&room, words, "");
        assert_eq!(
            (ran.status, ran.out.as_str()),
            (Some(status), ""),
            "{words:?}"
        );
        assert!(
            ran.err.starts_with(&format!("ceromby: {said}")),
            "{words:?}: {}",
            ran.err
        );
    }
    let long = replay(&room, &[], "fresh 2 1 1 0 100 30 10 20\nrounds 100000\n");
    assert_eq!((long.status, long.out.as_str()), (Some(2), ""));
    let said = "ceromby: the list has 100000 steps or more";
    assert!(long.err.starts_with(said), "{}", long.err);
}
