//! What owned parts as wide as ours cost at least: those that std's own search gives, or as many with no search.
use crate::data::{between, text, DEVIL};
use crate::{sum_of, timed, Taken};
use std::iter::repeat;
use std::sync::atomic::{AtomicUsize, Ordering::SeqCst};

/// A part, in 40 bytes.
struct Owned<'text> {
    part: &'text str,
    _owner: [usize; 3],
}

/// The parts in a growing list, with an owner counted for each.
fn owned<'text>(parts: impl Iterator<Item = &'text str>) -> Vec<Owned<'text>> {
    let owners = AtomicUsize::new(1);
    let mut all = Vec::new();
    for part in parts {
        let count = owners.fetch_update(SeqCst, SeqCst, |count| count.checked_add(1));
        all.push(Owned { part, _owner: [count.expect("few owners"); 3] });
    }
    all
}

fn parts<'text>(work: &str, text: &'text str) -> Vec<Owned<'text>> {
    match work {
        "split" | "fields" => owned(text.split(',')),
        "splitn" => owned(text.splitn(usize::MAX, ',')),
        "rsplit" => owned(text.rsplit(',')),
        "rsplitn" => owned(text.rsplitn(usize::MAX, ',')),
        "inclusive" => owned(text.split_inclusive(',')),
        "split4" => owned(text.split(DEVIL)),
        "rsplit4" => owned(text.rsplit(DEVIL)),
        "characters" => owned(text.split("")),
        "rcharacters" => owned(text.rsplit("")),
        "lines" => owned(text.lines()),
        "words" => owned(text.split_whitespace()),
        "ascii_words" => owned(text.split_ascii_whitespace()),
        _ => panic!("{work} is unknown"),
    }
}

fn seen(parts: &Vec<Owned>) -> (usize, usize) {
    sum_of(parts.iter().map(|it| it.part.len()))
}

/// One time of std's search on `size` bytes.
pub fn time(work: &str, size: usize) -> Taken {
    let text = text(size, between(work));
    timed(&text[..], |text| parts(work, text), seen)
}

/// One time of as many empty parts as a work makes. It reports the bytes of those of the work.
pub fn time_floor(work: &str, size: usize) -> Taken {
    let (count, bytes) = seen(&parts(work, &text(size, between(work))));
    timed(count, |count| owned(repeat("").take(count)), |made| (made.len(), bytes))
}
