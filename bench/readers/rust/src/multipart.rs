//! Parts of a multipart body. The line before each part, and the one after the last, begin with two hyphens and the
//! boundary.
use bytes::{Buf, Bytes, BytesMut};
use memchr::memmem::Finder;
use std::str;

#[derive(Debug)]
pub struct Part {
    pub head: Bytes,
    pub name: Option<String>,
    pub file_name: Option<String>,
    pub body: Bytes,
}

#[derive(Clone, Copy)]
pub struct Limits {
    pub head: usize,
    pub body: usize,
}

#[derive(Debug)]
pub enum PartError {
    Malformed,
    NotUtf8,
    TooLarge,
}

use PartError::{Malformed, NotUtf8, TooLarge};

enum Place {
    BeforeFirst,
    AfterDelimiter,
    Ended,
}

pub struct Parts {
    held: BytesMut,
    delimiter: Finder<'static>,
    /// Finds the empty line after a head.
    head_end: Finder<'static>,
    /// At how many places the delimiter doesn't begin.
    searched: usize,
    place: Place,
    limits: Limits,
}

impl Parts {
    pub fn new(boundary: &[u8], limits: Limits) -> Parts {
        let delimiter = [b"\r\n--", boundary].concat();
        Parts {
            // The first delimiter may be the first line.
            held: BytesMut::from(&b"\r\n"[..]),
            delimiter: Finder::new(&delimiter).into_owned(),
            head_end: Finder::new(b"\r\n\r\n"),
            searched: 0,
            place: Place::BeforeFirst,
            limits,
        }
    }

    pub fn push(&mut self, piece: &[u8]) {
        self.held.extend_from_slice(piece);
    }

    /// Takes the next part, if all of it and the delimiter after it have come.
    pub fn next_part(&mut self) -> Result<Option<Part>, PartError> {
        if let Place::BeforeFirst = self.place {
            let Some(len) = self.find() else {
                return Ok(None);
            };
            self.pass(len);
            self.place = Place::AfterDelimiter;
        }
        if self.held.starts_with(b"--") {
            self.place = Place::Ended;
        }
        if let Place::Ended = self.place {
            self.held.clear();
            return Ok(None);
        }
        let Some(len) = self.find() else {
            if self.held.len() > self.limits.head.saturating_add(self.limits.body) {
                return Err(TooLarge);
            }
            return Ok(None);
        };
        let part = self.pass(len);
        self.part_of(part).map(Some)
    }

    /// How many bytes are before the next delimiter, if it has come.
    fn find(&mut self) -> Option<usize> {
        let size = self.delimiter.needle().len();
        match self.delimiter.find(&self.held[self.searched..]) {
            Some(place) => Some(self.searched + place),
            None => {
                self.searched = self.held.len().saturating_sub(size - 1);
                None
            }
        }
    }

    /// Takes `len` bytes, and passes the delimiter.
    fn pass(&mut self, len: usize) -> Bytes {
        let bytes = self.held.split_to(len).freeze();
        self.held.advance(self.delimiter.needle().len());
        self.searched = 0;
        bytes
    }

    /// The part between two delimiters: blanks, the end of a line, the head, an empty line, the body.
    fn part_of(&self, part: Bytes) -> Result<Part, PartError> {
        let blanks = part.iter().take_while(|byte| matches!(byte, b' ' | b'\t')).count();
        if !part[blanks..].starts_with(b"\r\n") {
            return Err(Malformed);
        }
        let len = self.head_end.find(&part[blanks..]).ok_or(Malformed)?;
        let (start, end) = ((blanks + 2).min(blanks + len), blanks + len);
        let (head, body) = (part.slice(start..end), part.slice(end + 4..));
        if head.len() > self.limits.head || body.len() > self.limits.body {
            return Err(TooLarge);
        }
        let text = str::from_utf8(&head).map_err(|_| NotUtf8)?;
        let line = text.lines().find_map(disposition).unwrap_or("");
        let name = quoted(line, "; name=\"");
        let file_name = quoted(line, "; filename=\"");
        Ok(Part { head, name, file_name, body })
    }
}

/// The value of a line `Content-Disposition`.
fn disposition(line: &str) -> Option<&str> {
    let (name, value) = line.split_once(':')?;
    name.eq_ignore_ascii_case("Content-Disposition").then_some(value)
}

/// The text after `before`, up to a quote.
fn quoted(line: &str, before: &str) -> Option<String> {
    let (_, after) = line.split_once(before)?;
    Some(after.split_once('"')?.0.to_owned())
}
