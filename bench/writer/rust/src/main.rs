//! Segments written to standard output, as a Rust program does it today: `writer SEGMENT TOTAL TIMES`. TOTAL bytes lie
//! in segments of SEGMENT, all of them parts of one block, and are written by a loop of `write_vectored` over 64 slices
//! at once. It prints the least nanoseconds of all times on standard error.
use bytes::{Buf, Bytes};
use std::collections::VecDeque;
use std::fs::File;
use std::io::{self, ErrorKind, IoSlice, Write};
use std::mem::ManuallyDrop;
use std::os::fd::FromRawFd;
use std::time::Instant;

const MOST_SLICES: usize = 64;

/// Many buffers as one, as the `SegmentedBuf` of bytes-utils 0.1.4 is.
struct Segments {
    bufs: VecDeque<Bytes>,
    remaining: usize,
}

impl Segments {
    fn of(mut block: Bytes, segment: usize) -> Segments {
        let remaining = block.len();
        let mut bufs = VecDeque::new();
        while !block.is_empty() {
            bufs.push_back(block.split_to(segment.min(block.len())));
        }
        Segments { bufs, remaining }
    }
}

impl Buf for Segments {
    fn remaining(&self) -> usize {
        self.remaining
    }

    fn chunk(&self) -> &[u8] {
        self.bufs.front().map(Buf::chunk).unwrap_or_default()
    }

    fn advance(&mut self, mut count: usize) {
        self.remaining -= count;
        while count > 0 {
            let front = &mut self.bufs[0];
            let some = front.remaining().min(count);
            front.advance(some);
            count -= some;
            if !front.has_remaining() {
                self.bufs.pop_front();
            }
        }
    }

    fn chunks_vectored<'s>(&'s self, slices: &mut [IoSlice<'s>]) -> usize {
        let mut filled = 0;
        for buf in &self.bufs {
            if filled == slices.len() {
                break;
            }
            filled += buf.chunks_vectored(&mut slices[filled..]);
        }
        filled
    }
}

fn write_all_of(writer: &mut impl Write, buf: &mut impl Buf) -> io::Result<()> {
    while buf.has_remaining() {
        let mut slices = [IoSlice::new(&[]); MOST_SLICES];
        let filled = buf.chunks_vectored(&mut slices);
        match writer.write_vectored(&slices[..filled]) {
            Ok(0) => return Err(ErrorKind::WriteZero.into()),
            Ok(count) => buf.advance(count),
            Err(error) if error.kind() == ErrorKind::Interrupted => {}
            Err(error) => return Err(error),
        }
    }
    Ok(())
}

fn main() -> io::Result<()> {
    let numbers: Vec<usize> = std::env::args().skip(1).map(|word| word.parse().unwrap()).collect();
    let [segment, total, times] = numbers[..] else {
        panic!("writer SEGMENT TOTAL TIMES");
    };
    let block = Bytes::from(vec![b'a'; total]);
    let mut output = ManuallyDrop::new(unsafe { File::from_raw_fd(1) });
    let mut least = u128::MAX;
    for _ in 0..times {
        let mut all = Segments::of(block.clone(), segment);
        let start = Instant::now();
        write_all_of(&mut *output, &mut all)?;
        least = least.min(start.elapsed().as_nanos());
    }
    eprintln!("{least}");
    Ok(())
}
