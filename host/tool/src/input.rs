//! Lines of an input, however long, in whatever pieces they come.

use std::io::{self, BufRead, ErrorKind};

use crate::line::LONGEST;

const BYTE_ORDER_MARK: &[u8] = b"\xef\xbb\xbf";

/// What comes next.
#[derive(Clone, PartialEq, Eq, Debug)]
pub enum Event {
    /// A line; the last one may lack its end.
    Line(Line),
    /// Ctrl-C came before a line.
    Interrupted,
    /// The input has ended.
    End,
}

/// A line as far as it is needed: its first bytes, its length, its first word's
/// first byte.
#[derive(Clone, PartialEq, Eq, Debug, Default)]
pub struct Line {
    front: Vec<u8>,
    length: u64,
    first: Option<u8>,
}

impl Line {
    /// Whether it says nothing: it has no word, or is a remark.
    pub fn is_remark(&self) -> bool {
        self.first.map_or(true, |first| first == b'#')
    }

    /// Its bytes; none where it is too long.
    pub fn bytes(&self) -> Option<&[u8]> {
        (self.length <= LONGEST as u64).then_some(&self.front)
    }

    /// Without the mark with which some editors begin a file in UTF-8.
    fn drop_mark(&mut self) {
        if let Some(rest) = self.front.strip_prefix(BYTE_ORDER_MARK) {
            let rest = rest.to_vec();
            self.length -= BYTE_ORDER_MARK.len() as u64;
            self.first = rest.iter().copied().find(|byte| *byte > b' ');
            self.front = rest;
        }
    }

    fn add(&mut self, part: &[u8]) {
        let room = LONGEST - self.front.len();
        self.front.extend_from_slice(&part[..part.len().min(room)]);
        self.length += part.len() as u64;
        if self.first.is_none() {
            self.first = part.iter().copied().find(|byte| *byte > b' ');
        }
    }
}

/// Lines of a source, one after the other.
#[derive(Debug)]
pub struct Lines<R> {
    source: R,
    line: Line,
    /// Whether a line came already.
    begun: bool,
}

impl<R: BufRead> Lines<R> {
    /// From its beginning.
    pub fn new(source: R) -> Lines<R> {
        Lines {
            source,
            line: Line::default(),
            begun: false,
        }
    }

    /// The next line. What came of one before Ctrl-C or an error is gone.
    pub fn next_event(&mut self) -> io::Result<Event> {
        loop {
            let available = match self.source.fill_buf() {
                Ok(available) => available,
                Err(error) => {
                    self.line = Line::default();
                    return match error.kind() {
                        ErrorKind::Interrupted => Ok(Event::Interrupted),
                        _ => Err(error),
                    };
                }
            };
            if available.is_empty() {
                return Ok(match self.line.length {
                    0 => Event::End,
                    _ => self.whole(),
                });
            }
            let end = available.iter().position(|byte| *byte == b'\n');
            let length = end.unwrap_or(available.len());
            self.line.add(&available[..length]);
            self.source.consume(length + usize::from(end.is_some()));
            if end.is_some() {
                return Ok(self.whole());
            }
        }
    }

    fn whole(&mut self) -> Event {
        let mut line = std::mem::take(&mut self.line);
        if !std::mem::replace(&mut self.begun, true) {
            line.drop_mark();
        }
        Event::Line(line)
    }
}
