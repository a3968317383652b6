//! The words of a line.

use ceromby::Name;

use crate::line::{Fault, Unreadable};
use crate::say;

/// What is between blanks, or between quotation marks.
#[derive(Debug)]
pub struct Word {
    /// Without quotation marks.
    pub bytes: Vec<u8>,
}

impl Word {
    /// As it can be shown.
    pub fn shown(&self) -> String {
        say::shown(&self.bytes)
    }

    /// In small letters, as words of calls are compared.
    pub fn lowered(&self) -> String {
        String::from_utf8_lossy(&self.bytes).to_ascii_lowercase()
    }

    /// As text; bytes that are none become marks.
    pub fn text(&self) -> String {
        String::from_utf8_lossy(&self.bytes).into_owned()
    }

    /// A number of digits alone, up to 4294967295.
    pub fn number(&self) -> Result<u32, Fault> {
        if self.bytes.is_empty() || !self.bytes.iter().all(u8::is_ascii_digit) {
            return Err(Fault::NoNumber(self.shown()));
        }
        let digits = String::from_utf8_lossy(&self.bytes);
        // digits alone: a number, or one that is too great
        digits.parse().map_err(|_| Fault::TooGreat(self.shown()))
    }

    /// Tiles with commas between them, as a set.
    pub fn tiles(&self) -> Option<u64> {
        let mut set = 0;
        for part in self.bytes.split(|byte| *byte == b',') {
            let part = Word {
                bytes: part.to_vec(),
            };
            let tile = part.number().ok()?;
            set |= 1u64.checked_shl(tile)?;
        }
        Some(set)
    }

    /// As a layout's name. A longer word is no name and gives zeros, which are
    /// refused by the same number.
    pub fn name(&self) -> Name {
        let mut letters = [0; 8];
        if let Some(front) = letters.get_mut(..self.bytes.len()) {
            front.copy_from_slice(&self.bytes);
        }
        Name { letters }
    }
}

fn is_blank(byte: u8) -> bool {
    byte <= b' '
}

fn without_blanks(text: &[u8]) -> &[u8] {
    let blanks = text.iter().take_while(|byte| is_blank(**byte)).count();
    &text[blanks..]
}

/// The words of a line, up to a remark.
pub fn words(line: &[u8]) -> Result<Vec<Word>, Unreadable> {
    let mut words = Vec::new();
    let mut rest = without_blanks(line);
    while let Some(first) = rest.first() {
        let (word, after) = match first {
            b'#' => break,
            b'"' => quoted(rest)?,
            _ => plain(rest),
        };
        words.push(Word {
            bytes: word.to_vec(),
        });
        rest = without_blanks(after);
    }
    Ok(words)
}

/// The text up to its first blank, and the rest.
fn plain(text: &[u8]) -> (&[u8], &[u8]) {
    let end = text.iter().position(|byte| is_blank(*byte));
    text.split_at(end.unwrap_or(text.len()))
}

/// What the quotation marks at the beginning hold, and what follows them.
fn quoted(text: &[u8]) -> Result<(&[u8], &[u8]), Unreadable> {
    let inside = &text[1..];
    let closed = inside.iter().position(|byte| *byte == b'"');
    let parts = closed.map(|at| (&inside[..at], &inside[at + 1..]));
    let whole = parts.filter(|(_, after)| after.first().map_or(true, |byte| is_blank(*byte)));
    whole.ok_or_else(|| Unreadable {
        fault: Fault::Quotation(say::shown(text)),
        expected: "a name between two \" and a blank after it",
    })
}
