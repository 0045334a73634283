//! Texts that are cut into owned parts, which go into a growing list.
use crate::data::{between, text, DEVIL};
use crate::{sum_of, timed, Taken};
use bytes::Bytes;
use bytes_utils::string::{BytesIter, Direction};
use bytes_utils::Str;

fn parts(work: &str, text: Str) -> Vec<Str> {
    let comma = |rest: &str| rest.find(',').map(|at| (at, at + 1));
    match work {
        "split" => text.split_bytes(",").collect(),
        "splitn" => text.splitn_bytes(usize::MAX, ",").collect(),
        "rsplit" => text.rsplit_bytes(",").collect(),
        "rsplitn" => text.rsplitn_bytes(usize::MAX, ",").collect(),
        "fields" => BytesIter::new(text, Direction::Forward, comma).collect(),
        "split4" => text.split_bytes(DEVIL).collect(),
        "rsplit4" => text.rsplit_bytes(DEVIL).collect(),
        "characters" => text.split_bytes("").collect(),
        "rcharacters" => text.rsplit_bytes("").collect(),
        "lines" => text.lines_bytes().collect(),
        "words" => text.split_whitespace_bytes().collect(),
        "ascii_words" => text.split_ascii_whitespace_bytes().collect(),
        _ => panic!("{work} is unknown"),
    }
}

/// One time of a work on `size` bytes.
pub fn time(work: &str, size: usize) -> Taken {
    let text = Str::from_inner(Bytes::from(text(size, between(work)))).expect("a text");
    timed(text, |text| parts(work, text), |parts| sum_of(parts.iter().map(|part| part.len())))
}
