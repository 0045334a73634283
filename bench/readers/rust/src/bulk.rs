//! Bulk strings of Redis: `$`, a length in decimal digits, CR LF, the bytes, CR LF.
use bytes::{Buf, Bytes, BytesMut};
use memchr::memchr;
use std::str;

#[derive(Debug)]
pub struct Malformed;

/// Takes the next bulk string off what has come, if all of it has.
pub fn next_bulk(held: &mut BytesMut) -> Result<Option<Bytes>, Malformed> {
    let Some((start, len)) = head(held)? else {
        return Ok(None);
    };
    let end = start.checked_add(len).ok_or(Malformed)?;
    match held.get(end..) {
        None | Some([] | [b'\r']) => return Ok(None),
        Some([b'\r', b'\n', ..]) => {}
        Some(_) => return Err(Malformed),
    }
    held.advance(start);
    let body = held.split_to(len).freeze();
    held.advance(2);
    Ok(Some(body))
}

/// The place of the first byte of the body, and its length.
fn head(held: &[u8]) -> Result<Option<(usize, usize)>, Malformed> {
    match held.first() {
        None => return Ok(None),
        Some(b'$') => {}
        Some(_) => return Err(Malformed),
    }
    let Some(place) = memchr(b'\r', held) else {
        return Ok(None);
    };
    match held.get(place + 1) {
        None => return Ok(None),
        Some(b'\n') => {}
        Some(_) => return Err(Malformed),
    }
    let digits = str::from_utf8(&held[1..place]).map_err(|_| Malformed)?;
    Ok(Some((place + 2, digits.parse().map_err(|_| Malformed)?)))
}
