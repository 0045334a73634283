//! Calls on a `SegmentedBuf`, until nothing is left.
use crate::data::segments;
use crate::{sum_of, timed, Taken};
use bytes::{Buf, Bytes};
use bytes_utils::SegmentedBuf;
use std::hint::black_box;
use std::io::IoSlice;

/// How many bytes one call takes.
const ADVANCED: usize = 7;
const COPIED: usize = 100;

fn pushed(segments: Vec<Bytes>) -> SegmentedBuf<Bytes> {
    let mut all = SegmentedBuf::new();
    for segment in segments {
        all.push(segment);
    }
    all
}

fn advanced(all: &mut SegmentedBuf<Bytes>) -> (usize, usize) {
    let (mut calls, mut bytes) = (0, 0);
    while all.has_remaining() {
        let len = all.remaining().min(ADVANCED);
        all.advance(len);
        calls += 1;
        bytes += len;
    }
    (calls, bytes)
}

fn copied(all: &mut SegmentedBuf<Bytes>) -> Vec<Bytes> {
    let mut copies = Vec::new();
    while all.has_remaining() {
        copies.push(all.copy_to_bytes(all.remaining().min(COPIED)));
    }
    copies
}

fn table_of(all: &SegmentedBuf<Bytes>) -> Vec<IoSlice<'_>> {
    let mut table = vec![IoSlice::new(&[]); all.segments()];
    let filled = all.chunks_vectored(black_box(&mut table));
    table.truncate(filled);
    table
}

/// One time of a work on `size` segments.
pub fn time(work: &str, size: usize) -> Taken {
    let segments = segments(size);
    if work == "push" {
        return timed(segments, pushed, |all| (all.segments(), all.remaining()));
    }
    let mut all = pushed(segments);
    match work {
        "advance" => timed(&mut all, |all| advanced(all), |seen| *seen),
        "copy" => timed(&mut all, |all| copied(all), |copies| sum_of(copies.iter().map(Bytes::len))),
        _ => timed(&all, |all| table_of(all), |table| sum_of(table.iter().map(|chunk| chunk.len()))),
    }
}
