//! Readers of protocols, as a Rust program has them: `readers READER HOW PIECE KEPT ROUNDS`, with the stream as its
//! input. READER is `replies`, of Redis; `bulks`, the bulk strings of Redis alone; `prefixed`, frames after their
//! lengths, by a loop, or `codec`, by tokio-util's `LengthDelimitedCodec`; `events`, Server-Sent Events; or `parts`,
//! of a multipart body. Each is over one growing `BytesMut`, to which a piece of PIECE bytes is appended; HOW means
//! nothing here. The last KEPT messages are held. It prints the messages, a sum over them, and the least nanoseconds
//! of all rounds.
use bytes::{Bytes, BytesMut};
use std::collections::VecDeque;
use std::env;
use std::hint::black_box;
use std::io::{self, Read};
use std::time::Instant;
use tokio_util::codec::{Decoder, LengthDelimitedCodec};

mod bulk;
mod events;
mod multipart;
mod prefixed;
mod redis;

use events::{Event, Events};
use multipart::{Part, Parts};
use redis::{Item, Replies};

const BOUNDARY: &[u8] = b"----WebKitFormBoundary7MA4YWxkTrZu0gW";

/// Whatever takes pieces in, and gives the messages that have come.
trait Reader {
    type Message;

    fn push(&mut self, piece: &[u8]);

    fn next(&mut self) -> Option<Self::Message>;

    /// The sum of the lengths of the texts and of the numbers.
    fn size(message: &Self::Message) -> u64;
}

impl Reader for Replies {
    type Message = Vec<Item>;

    fn push(&mut self, piece: &[u8]) {
        Replies::push(self, piece);
    }

    fn next(&mut self) -> Option<Vec<Item>> {
        self.next_reply().expect("replies")
    }

    fn size(items: &Vec<Item>) -> u64 {
        items.iter().map(Item::size).sum()
    }
}

impl Reader for Events {
    type Message = Event;

    fn push(&mut self, piece: &[u8]) {
        Events::push(self, piece);
    }

    fn next(&mut self) -> Option<Event> {
        self.next_event().expect("events")
    }

    fn size(event: &Event) -> u64 {
        let texts = [event.name.as_deref(), Some(&event.data), event.id.as_deref()];
        texts.iter().flatten().map(|it| it.len() as u64).sum()
    }
}

impl Reader for Parts {
    type Message = Part;

    fn push(&mut self, piece: &[u8]) {
        Parts::push(self, piece);
    }

    fn next(&mut self) -> Option<Part> {
        self.next_part().expect("parts")
    }

    fn size(part: &Part) -> u64 {
        let names = [part.name.as_deref(), part.file_name.as_deref()];
        let names: usize = names.iter().flatten().map(|it| it.len()).sum();
        (part.head.len() + names + part.body.len()) as u64
    }
}

struct Bulks(BytesMut);

impl Reader for Bulks {
    type Message = Bytes;

    fn push(&mut self, piece: &[u8]) {
        self.0.extend_from_slice(piece);
    }

    fn next(&mut self) -> Option<Bytes> {
        bulk::next_bulk(&mut self.0).expect("bulk strings")
    }

    fn size(body: &Bytes) -> u64 {
        body.len() as u64
    }
}

struct Prefixed(BytesMut);

impl Reader for Prefixed {
    type Message = Bytes;

    fn push(&mut self, piece: &[u8]) {
        self.0.extend_from_slice(piece);
    }

    fn next(&mut self) -> Option<Bytes> {
        prefixed::next_frame(&mut self.0, 8 << 20).expect("short frames")
    }

    fn size(frame: &Bytes) -> u64 {
        frame.len() as u64
    }
}

struct Codec {
    codec: LengthDelimitedCodec,
    held: BytesMut,
}

impl Reader for Codec {
    type Message = Bytes;

    fn push(&mut self, piece: &[u8]) {
        self.held.extend_from_slice(piece);
    }

    fn next(&mut self) -> Option<Bytes> {
        Some(self.codec.decode(&mut self.held).expect("short frames")?.freeze())
    }

    fn size(frame: &Bytes) -> u64 {
        frame.len() as u64
    }
}

/// How a stream comes, and how many of its messages are held.
#[derive(Clone, Copy)]
struct Asked {
    piece: usize,
    kept: usize,
}

/// How many messages came, and the sum of their sizes.
#[derive(Default)]
struct Seen {
    messages: u64,
    sum: u64,
}

/// One round: what came, and in how many nanoseconds.
fn round<R: Reader>(mut reader: R, all: &[u8], asked: Asked) -> (Seen, u128) {
    let mut seen = Seen::default();
    let mut kept = VecDeque::new();
    let start = Instant::now();
    for piece in all.chunks(asked.piece) {
        reader.push(piece);
        while let Some(message) = reader.next() {
            seen.messages += 1;
            seen.sum += R::size(black_box(&message));
            if asked.kept == 0 {
                continue;
            }
            if kept.len() == asked.kept {
                kept.pop_front();
            }
            kept.push_back(message);
        }
    }
    drop((reader, kept));
    (seen, start.elapsed().as_nanos())
}

fn round_of(reader: &str, all: &[u8], asked: Asked) -> (Seen, u128) {
    let held = BytesMut::new();
    match reader {
        "replies" => {
            let limits = redis::Limits { line: 64 << 10, bulk: 512 << 20, items: 1 << 20 };
            round(Replies::new(limits), all, asked)
        }
        "events" => {
            let limits = events::Limits { line: 1 << 20, data: 1 << 20 };
            round(Events::new(limits), all, asked)
        }
        "parts" => {
            let limits = multipart::Limits { head: 64 << 10, body: 512 << 20 };
            round(Parts::new(BOUNDARY, limits), all, asked)
        }
        "bulks" => round(Bulks(held), all, asked),
        "prefixed" => round(Prefixed(held), all, asked),
        "codec" => round(Codec { codec: LengthDelimitedCodec::new(), held }, all, asked),
        _ => panic!("{reader} is unknown"),
    }
}

fn main() {
    let words: Vec<String> = env::args().skip(1).collect();
    let [reader, _, numbers @ ..] = &words[..] else {
        panic!("readers READER HOW PIECE KEPT ROUNDS");
    };
    let numbers: Vec<usize> = numbers.iter().map(|it| it.parse().expect("a number")).collect();
    let [piece, kept, rounds] = numbers[..] else {
        panic!("three numbers");
    };
    let mut all = Vec::new();
    io::stdin().read_to_end(&mut all).expect("a stream");
    let runs = (0..rounds).map(|_| round_of(reader, &all, Asked { piece, kept }));
    let (seen, time) = runs.min_by_key(|(_, time)| *time).expect("a round");
    println!("{} {} {time}", seen.messages, seen.sum);
}
