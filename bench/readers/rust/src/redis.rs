//! Replies of Redis, with nested arrays. A reply is read as ranges of what is held; once it is whole, its bytes are
//! frozen, and its items are parts of them.
use bytes::{Bytes, BytesMut};
use memchr::memchr2;
use std::ops::Range;
use std::str;

/// A part of a reply: one item, or an array and then its items.
#[derive(Debug)]
pub enum Item<T = Bytes> {
    Simple(T),
    Error(T),
    Integer(i64),
    Bulk(Option<T>),
    Array(Option<usize>),
}

impl Item {
    /// How many bytes the text has, or the number.
    pub fn size(&self) -> u64 {
        match self {
            Item::Simple(text) | Item::Error(text) | Item::Bulk(Some(text)) => text.len() as u64,
            Item::Integer(number) => number.unsigned_abs(),
            Item::Bulk(None) | Item::Array(_) => 0,
        }
    }
}

impl Item<Range<usize>> {
    fn of(&self, reply: &Bytes) -> Item {
        let bytes = |range: &Range<usize>| reply.slice(range.clone());
        match self {
            Item::Simple(text) => Item::Simple(bytes(text)),
            Item::Error(text) => Item::Error(bytes(text)),
            Item::Integer(number) => Item::Integer(*number),
            Item::Bulk(body) => Item::Bulk(body.as_ref().map(bytes)),
            Item::Array(count) => Item::Array(*count),
        }
    }
}

#[derive(Clone, Copy)]
pub struct Limits {
    pub line: usize,
    pub bulk: usize,
    pub items: usize,
}

#[derive(Debug)]
pub enum ReplyError {
    Malformed,
    TooLarge,
}

use ReplyError::{Malformed, TooLarge};

pub struct Replies {
    held: BytesMut,
    limits: Limits,
    /// The items of the reply that is read, in memory that is used again.
    parts: Vec<Item<Range<usize>>>,
}

impl Replies {
    pub fn new(limits: Limits) -> Replies {
        Replies { held: BytesMut::new(), limits, parts: Vec::new() }
    }

    pub fn push(&mut self, piece: &[u8]) {
        self.held.extend_from_slice(piece);
    }

    /// Takes the next reply, if all of it has come.
    pub fn next_reply(&mut self) -> Result<Option<Vec<Item>>, ReplyError> {
        self.parts.clear();
        let mut text = Text { bytes: &self.held, at: 0, limits: self.limits };
        let Some(()) = text.reply(&mut self.parts)? else {
            return Ok(None);
        };
        let len = text.at;
        let reply = self.held.split_to(len).freeze();
        Ok(Some(self.parts.iter().map(|part| part.of(&reply)).collect()))
    }
}

/// The bytes that have come, and a place in them.
struct Text<'a> {
    bytes: &'a [u8],
    at: usize,
    limits: Limits,
}

impl Text<'_> {
    /// Passes all items of a reply.
    fn reply(&mut self, parts: &mut Vec<Item<Range<usize>>>) -> Result<Option<()>, ReplyError> {
        let mut due = 1;
        while due > 0 {
            let Some(item) = self.item()? else {
                return Ok(None);
            };
            due -= 1;
            if let Item::Array(Some(count)) = item {
                due += count;
            }
            parts.push(item);
            if due > self.limits.items - parts.len() {
                return Err(TooLarge);
            }
        }
        Ok(Some(()))
    }

    fn item(&mut self) -> Result<Option<Item<Range<usize>>>, ReplyError> {
        let Some(line) = self.line()? else {
            return Ok(None);
        };
        let text = line.start + 1..line.end;
        let item = match self.bytes[line.clone()].first() {
            Some(b'+') => Item::Simple(text),
            Some(b'-') => Item::Error(text),
            Some(b':') => Item::Integer(self.number(text)?),
            Some(b'$') => match self.length(text)? {
                None => Item::Bulk(None),
                Some(len) => return self.body(len),
            },
            Some(b'*') => match self.length(text)? {
                Some(count) if count > self.limits.items => return Err(TooLarge),
                count => Item::Array(count),
            },
            _ => return Err(Malformed),
        };
        Ok(Some(item))
    }

    /// Passes a line, in which no carriage return and no line feed is.
    fn line(&mut self) -> Result<Option<Range<usize>>, ReplyError> {
        let rest = &self.bytes[self.at..];
        let len = memchr2(b'\r', b'\n', rest).unwrap_or(rest.len());
        if len > self.limits.line {
            return Err(TooLarge);
        }
        match &rest[len..] {
            [] | [b'\r'] => Ok(None),
            [b'\r', b'\n', ..] => {
                let line = self.at..self.at + len;
                self.at += len + 2;
                Ok(Some(line))
            }
            _ => Err(Malformed),
        }
    }

    fn body(&mut self, len: usize) -> Result<Option<Item<Range<usize>>>, ReplyError> {
        if len > self.limits.bulk {
            return Err(TooLarge);
        }
        let body = self.at..self.at + len;
        match self.bytes.get(body.end..) {
            None | Some([] | [b'\r']) => Ok(None),
            Some([b'\r', b'\n', ..]) => {
                self.at = body.end + 2;
                Ok(Some(Item::Bulk(Some(body))))
            }
            Some(_) => Err(Malformed),
        }
    }

    fn length(&self, text: Range<usize>) -> Result<Option<usize>, ReplyError> {
        if &self.bytes[text.clone()] == b"-1" {
            return Ok(None);
        }
        self.number(text).map(Some)
    }

    fn number<N: str::FromStr>(&self, text: Range<usize>) -> Result<N, ReplyError> {
        let text = str::from_utf8(&self.bytes[text]).map_err(|_| Malformed)?;
        text.parse().map_err(|_| Malformed)
    }
}
