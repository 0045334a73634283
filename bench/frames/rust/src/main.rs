//! Frames out of pieces, as a Rust program has them today: `frames HOW END SIZE PIECE LEAST MOST ROUNDS`. HOW is
//! `memmem_borrowed` or `memmem_moved`, a loop of `memmem` over one growing `BytesMut` that searches on from where it
//! stopped, or `codec_borrowed` or `codec_moved`, tokio-util's `LinesCodec`, for END `lf` alone. Pieces are borrowed as
//! slices of the whole, or moved as blocks of their own, which are dropped once they are copied in. HOW `floor` has no
//! pieces: it searches the whole stream in one block, and counts one owner for each frame. END is `lf` or `crlf2`, or
//! one of the streams that attack a search: `returns`, `beginnings`, `run` or `pairs`. It prints the frames, their
//! bytes, and the least nanoseconds of all rounds.
use bytes::{Bytes, BytesMut};
use memchr::memmem::Finder;
use std::env;
use std::hint::black_box;
use std::time::Instant;
use tokio_util::codec::{Decoder, LinesCodec};

const RUN: &[u8] = b"aaaaaaaaaaaaaaaaaaaaaaaaaaaaaaaaaaaaaaaaaaaaaaaaaaaaaaaaaaaaaaab";

/// What ends each frame, and the letters before that, which come over and over.
fn end(word: &str) -> (&'static [u8], &'static [u8]) {
    match word {
        "lf" => (b"\n", b"abcdefghijklmnopqrstuvwxyz"),
        "returns" => (b"\r\n\r\n", b"\r"),
        "beginnings" => (b"\r\n\r\n", b"\r\n\rx"),
        "run" => (RUN, b"a"),
        "pairs" => (b"abababababababac", b"ab"),
        _ => (b"\r\n\r\n", b"abcdefghijklmnopqrstuvwxyz"),
    }
}

/// So many bytes or some more, in frames of `least` to `most` letters, each with the separator after it.
fn stream(size: usize, least: usize, most: usize, separator: &[u8], letters: &[u8]) -> Vec<u8> {
    let mut number: u64 = 12345;
    let mut bytes = Vec::with_capacity(size + most + separator.len());
    while bytes.len() < size {
        number = number
            .wrapping_mul(6364136223846793005)
            .wrapping_add(1442695040888963407);
        let length = least + (number >> 33) as usize % (most - least + 1);
        let first = (number >> 20) as usize;
        bytes.extend((0..length).map(|i| letters[first.wrapping_add(i) % letters.len()]));
        bytes.extend_from_slice(separator);
    }
    bytes
}

#[derive(Default)]
struct Seen {
    frames: usize,
    bytes: usize,
}

impl Seen {
    fn add(&mut self, frame: &[u8]) {
        black_box(frame);
        self.frames += 1;
        self.bytes += frame.len();
    }
}

/// Whatever takes pieces in, and gives the frames that have come.
trait Reader {
    fn take(&mut self, piece: &[u8], seen: &mut Seen);
}

struct Memmem {
    finder: Finder<'static>,
    held: BytesMut,
    searched: usize,
}

impl Reader for Memmem {
    #[inline]
    fn take(&mut self, piece: &[u8], seen: &mut Seen) {
        let size = self.finder.needle().len();
        self.held.extend_from_slice(piece);
        while let Some(at) = self.finder.find(&self.held[self.searched..]) {
            let len = self.searched + at;
            let mut frame = self.held.split_to(len + size);
            frame.truncate(len);
            seen.add(&frame.freeze());
            self.searched = 0;
        }
        self.searched = self.held.len().saturating_sub(size - 1);
    }
}

struct Codec {
    codec: LinesCodec,
    held: BytesMut,
}

impl Reader for Codec {
    #[inline]
    fn take(&mut self, piece: &[u8], seen: &mut Seen) {
        self.held.extend_from_slice(piece);
        while let Some(line) = self.codec.decode(&mut self.held).expect("small letters") {
            seen.add(line.as_bytes());
        }
    }
}

/// One round: what came, and in how many nanoseconds. Pieces that are moved are made before.
fn round(mut reader: impl Reader, all: &[u8], piece: usize, is_moved: bool) -> (Seen, u128) {
    let mut seen = Seen::default();
    if is_moved {
        let pieces: Vec<Bytes> = all.chunks(piece).map(Bytes::copy_from_slice).collect();
        let start = Instant::now();
        for piece in pieces {
            reader.take(&piece, &mut seen);
        }
        drop(reader);
        return (seen, start.elapsed().as_nanos());
    }
    let start = Instant::now();
    for piece in all.chunks(piece) {
        reader.take(piece, &mut seen);
    }
    drop(reader);
    (seen, start.elapsed().as_nanos())
}

/// One round without pieces.
fn floor(finder: &Finder, whole: &Bytes) -> (Seen, u128) {
    let mut seen = Seen::default();
    let mut from = 0;
    let start = Instant::now();
    while let Some(at) = finder.find(&whole[from..]) {
        seen.add(&whole.slice(from..from + at));
        from += at + finder.needle().len();
    }
    (seen, start.elapsed().as_nanos())
}

fn main() {
    let words: Vec<String> = env::args().skip(1).collect();
    let [how, word, numbers @ ..] = &words[..] else {
        panic!("frames HOW END SIZE PIECE LEAST MOST ROUNDS");
    };
    let numbers: Vec<usize> = numbers.iter().map(|it| it.parse().expect("a number")).collect();
    let [size, piece, least, most, rounds] = numbers[..] else {
        panic!("five numbers");
    };
    let (separator, letters) = end(word);
    let all = Bytes::from(stream(size, least, most, separator, letters));
    let is_moved = how.ends_with("_moved");
    let runs = (0..rounds).map(|_| {
        let held = BytesMut::new();
        if how.starts_with("codec") {
            let codec = LinesCodec::new();
            return round(Codec { codec, held }, &all, piece, is_moved);
        }
        let finder = Finder::new(separator);
        if how == "floor" {
            return floor(&finder, &all);
        }
        round(Memmem { finder, held, searched: 0 }, &all, piece, is_moved)
    });
    let (seen, time) = runs.min_by_key(|(_, time)| *time).expect("a round");
    println!("{} {} {time}", seen.frames, seen.bytes);
}
