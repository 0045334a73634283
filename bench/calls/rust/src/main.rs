//! What bytes-utils 0.1.4 does, timed: `calls WORK SIZE TIMES`, as our program. Before WORK may come `std40_`, where
//! std's own search cuts the text, or `floor_`, where as many parts are made with no search. It prints the number of
//! elements, the number of their bytes, and the least nanoseconds of all times.
mod builds;
mod cuts;
mod data;
mod reads;
mod std40;

use std::env;
use std::hint::black_box;
use std::time::Instant;

/// How many elements came, how many bytes they have together, and in how many nanoseconds.
struct Taken {
    elements: usize,
    bytes: usize,
    time: u128,
}

/// Times a work on what is made before. What it makes is dropped outside of the time.
fn timed<Given, Made>(
    given: Given,
    work: impl FnOnce(Given) -> Made,
    seen: impl FnOnce(&Made) -> (usize, usize),
) -> Taken {
    let given = black_box(given);
    let start = Instant::now();
    let made = work(given);
    let time = start.elapsed().as_nanos();
    let (elements, bytes) = seen(black_box(&made));
    Taken { elements, bytes, time }
}

/// How many there are, and how many bytes they have together.
fn sum_of(lengths: impl Iterator<Item = usize>) -> (usize, usize) {
    lengths.fold((0, 0), |(count, bytes), len| (count + 1, bytes + len))
}

fn time(work: &str, size: usize) -> Taken {
    if let Some(work) = work.strip_prefix("std40_") {
        return std40::time(work, size);
    }
    if let Some(work) = work.strip_prefix("floor_") {
        return std40::time_floor(work, size);
    }
    match work {
        "push" | "advance" | "copy" | "chunks" => reads::time(work, size),
        "push_str" | "push_char" => builds::time(work, size),
        _ => cuts::time(work, size),
    }
}

fn main() {
    let words: Vec<String> = env::args().skip(1).collect();
    let [work, size, times] = &words[..] else {
        panic!("calls WORK SIZE TIMES");
    };
    let size = size.parse().expect("a number");
    let times: usize = times.parse().expect("a number");
    let runs = (0..times).map(|_| time(work, size));
    let Taken { elements, bytes, time } = runs.min_by_key(|taken| taken.time).expect("a time");
    println!("{elements} {bytes} {time}");
}
