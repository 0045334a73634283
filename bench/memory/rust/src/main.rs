//! Pieces that are held, as a Rust program has them today: `memory HOW TOTAL BLOCK FIRST SECOND`. HOW is `buffer`, one
//! growing `BytesMut` that they are copied into, or `queue`, a `VecDeque` of `Bytes`, as the `SegmentedBuf` of
//! bytes-utils 0.1.4 has. Pieces of FIRST and of SECOND bytes come in turn, each the beginning of a block of BLOCK
//! bytes of its own, or as long as its block if BLOCK is less, until TOTAL bytes or some more are held. Or HOW is
//! `kept`: TOTAL frames are held, each of FIRST bytes with the line feed after it, and each read alone into one
//! `BytesMut` of 8 KiB, with room for 1,024 bytes, as codecs do. It prints how many bytes are held, and holds them
//! until its input ends.
use bytes::{Buf, Bytes, BytesMut};
use std::collections::VecDeque;
use std::env;
use std::io::{self, Read};

/// The pieces without an end.
fn pieces(block: usize, first: usize, second: usize) -> impl Iterator<Item = Bytes> {
    [first, second].into_iter().cycle().map(move |len| Bytes::from(vec![b'a'; block.max(len)]).slice(..len))
}

/// Frames, each of which came alone.
fn kept(count: usize, len: usize) -> Vec<Bytes> {
    let mut message = vec![b'a'; len - 1];
    message.push(b'\n');
    let (mut buffer, mut all) = (BytesMut::with_capacity(8 << 10), Vec::with_capacity(count));
    for _ in 0..count {
        buffer.reserve(1024);
        buffer.extend_from_slice(&message);
        let at = buffer.iter().position(|it| *it == b'\n').expect("a line feed");
        all.push(buffer.split_to(at).freeze());
        buffer.advance(1);
    }
    all
}

/// Reports how many bytes are held, and waits for the end of the input.
fn report(held: usize) -> io::Result<()> {
    println!("{held}");
    io::stdin().read_exact(&mut [0]).or(Ok(()))
}

fn main() -> io::Result<()> {
    let words: Vec<String> = env::args().skip(1).collect();
    let [how, numbers @ ..] = &words[..] else {
        panic!("memory HOW TOTAL BLOCK FIRST SECOND");
    };
    let numbers: Vec<usize> = numbers.iter().map(|it| it.parse().expect("a number")).collect();
    let [total, block, first, second] = numbers[..] else {
        panic!("four numbers");
    };
    if how == "kept" {
        let all = kept(total, first);
        return report(all.iter().map(Bytes::len).sum());
    }
    let (mut buffer, mut queue, mut held) = (BytesMut::new(), VecDeque::new(), 0);
    for piece in pieces(block, first, second) {
        if held >= total {
            break;
        }
        held += piece.len();
        if how == "buffer" {
            buffer.extend_from_slice(&piece);
        } else {
            queue.push_back(piece);
        }
    }
    report(held)
}
