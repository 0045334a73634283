//! The texts and the segments that are worked on, as the other side makes them.
use bytes::Bytes;
use std::iter::successors;

pub const DEVIL: &str = "\u{1f608}";

fn numbers() -> impl Iterator<Item = u64> {
    let following = |number: &u64| {
        Some(number.wrapping_mul(6364136223846793005).wrapping_add(1442695040888963407))
    };
    successors(Some(12345), following).skip(1)
}

/// What is between the words of the text that is cut.
pub fn between(work: &str) -> &'static [&'static str] {
    match work {
        "split4" | "rsplit4" | "characters" | "rcharacters" => &[DEVIL],
        "lines" => &["\n"],
        "words" => &[" ", " ", "\n", "\u{2003}"],
        "ascii_words" => &[" ", " ", "\n", "\t"],
        _ => &[","],
    }
}

/// So many bytes or some more, in words of 1 to 12 letters, with one of `between` between two words.
pub fn text(size: usize, between: &[&str]) -> String {
    let mut text = String::new();
    for number in numbers() {
        let first = (number >> 20) as usize;
        let letters = (number >> 33) as usize % 12 + 1;
        text.extend((0..letters).map(|i| (b'a' + (first.wrapping_add(i) % 26) as u8) as char));
        if text.len() >= size {
            break;
        }
        text.push_str(between[(number >> 40) as usize % between.len()]);
    }
    text
}

/// So many segments of 1 to 64 bytes, parts of one block.
pub fn segments(count: usize) -> Vec<Bytes> {
    let mut rest = Bytes::from(vec![b'x'; 64 * count]);
    numbers().take(count).map(|number| rest.split_to((number >> 33) as usize % 64 + 1)).collect()
}
