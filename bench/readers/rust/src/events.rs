//! Server-Sent Events: lines that a line feed, a carriage return or both end, and an empty one after each event.
use bytes::{Buf, BytesMut};
use memchr::memchr2;
use std::mem;
use std::str;
use std::sync::Arc;

const MARK: &[u8] = "\u{feff}".as_bytes();

#[derive(Debug)]
pub struct Event {
    pub name: Option<String>,
    pub data: String,
    pub id: Option<Arc<str>>,
}

#[derive(Clone, Copy)]
pub struct Limits {
    pub line: usize,
    pub data: usize,
}

#[derive(Debug)]
pub enum EventError {
    NotUtf8,
    TooLarge,
}

pub struct Events {
    held: BytesMut,
    /// How many bytes of the line that is to come have no end of a line.
    searched: usize,
    /// Whether a line feed that is next belongs to a carriage return before it.
    is_returned: bool,
    is_begun: bool,
    limits: Limits,
    lines: Lines,
}

impl Events {
    pub fn new(limits: Limits) -> Events {
        Events {
            held: BytesMut::new(),
            searched: 0,
            is_returned: false,
            is_begun: false,
            limits,
            lines: Lines::default(),
        }
    }

    pub fn push(&mut self, piece: &[u8]) {
        self.held.extend_from_slice(piece);
    }

    /// Takes the next event, if all of it has come.
    pub fn next_event(&mut self) -> Result<Option<Event>, EventError> {
        while let Some(len) = self.line_len() {
            if len > self.limits.line {
                return Err(EventError::TooLarge);
            }
            let mut line = &self.held[..len];
            if !mem::replace(&mut self.is_begun, true) {
                line = line.strip_prefix(MARK).unwrap_or(line);
            }
            let line = str::from_utf8(line).map_err(|_| EventError::NotUtf8)?;
            let event = self.lines.take(line, self.limits.data)?;
            self.is_returned = self.held[len] == b'\r';
            self.held.advance(len + 1);
            if event.is_some() {
                return Ok(event);
            }
        }
        if self.searched > self.limits.line {
            return Err(EventError::TooLarge);
        }
        Ok(None)
    }

    /// How many bytes the next line has, if its end has come.
    fn line_len(&mut self) -> Option<usize> {
        if self.is_returned && !self.held.is_empty() {
            self.is_returned = false;
            if self.held[0] == b'\n' {
                self.held.advance(1);
            }
        }
        match memchr2(b'\r', b'\n', &self.held[self.searched..]) {
            Some(place) => Some(mem::take(&mut self.searched) + place),
            None => {
                self.searched = self.held.len();
                None
            }
        }
    }
}

/// What the lines so far said.
#[derive(Default)]
struct Lines {
    name: Option<String>,
    data: Option<String>,
    id: Option<Arc<str>>,
}

impl Lines {
    /// Does what a line says. An empty one is the end of an event.
    fn take(&mut self, line: &str, most: usize) -> Result<Option<Event>, EventError> {
        if line.is_empty() {
            let name = self.name.take();
            let id = self.id.clone();
            return Ok(self.data.take().map(|data| Event { name, data, id }));
        }
        let (field, value) = line.split_once(':').unwrap_or((line, ""));
        let value = value.strip_prefix(' ').unwrap_or(value);
        match field {
            "data" => self.add_data(value, most)?,
            "event" => self.name = (!value.is_empty()).then(|| value.to_owned()),
            "id" if !value.contains('\0') => self.id = Some(value.into()),
            _ => {}
        }
        Ok(None)
    }

    fn add_data(&mut self, value: &str, most: usize) -> Result<(), EventError> {
        match &mut self.data {
            None => self.data = Some(value.to_owned()),
            Some(data) => {
                data.push('\n');
                data.push_str(value);
            }
        }
        if self.data.as_ref().is_some_and(|data| data.len() > most) {
            return Err(EventError::TooLarge);
        }
        Ok(())
    }
}
