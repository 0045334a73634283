//! Frames after their lengths, of four bytes.
use bytes::{Buf, Bytes, BytesMut};

#[derive(Debug)]
pub struct TooLong;

/// Takes the next frame off what has come, if all of it has.
pub fn next_frame(held: &mut BytesMut, max_length: usize) -> Result<Option<Bytes>, TooLong> {
    let Some(prefix) = held.first_chunk::<4>() else {
        return Ok(None);
    };
    let len = u32::from_be_bytes(*prefix) as usize;
    if len > max_length {
        return Err(TooLong);
    }
    if held.len() < 4 + len {
        return Ok(None);
    }
    held.advance(4);
    Ok(Some(held.split_to(len).freeze()))
}
