//! Four commands of our program, over bytes-utils 0.1.4: `split SEPARATOR`, `rsplit SEPARATOR`, `words` and `lines`, a
//! line of standard input with the text after it. Each part is written as its length, a colon, its bytes and a line
//! feed.
use bytes::Bytes;
use bytes_utils::Str;
use std::io::{self, BufWriter, Read, Write};

fn print(parts: impl Iterator<Item = Str>) -> io::Result<()> {
    let mut output = BufWriter::new(io::stdout().lock());
    for part in parts {
        write!(output, "{}:", part.len())?;
        output.write_all(part.as_bytes())?;
        output.write_all(b"\n")?;
    }
    output.flush()
}

fn main() -> io::Result<()> {
    let mut input = Vec::new();
    io::stdin().read_to_end(&mut input)?;
    let input = Str::from_inner(Bytes::from(input)).expect("UTF-8");
    let end = input.find('\n').expect("a line");
    let (line, rest) = input.split_at_bytes(end);
    let text = rest.slice(1..);
    match line.split_once(' ').unwrap_or((&line, "")) {
        ("split", separator) => print(text.split_bytes(separator)),
        ("rsplit", separator) => print(text.rsplit_bytes(separator)),
        ("words", _) => print(text.split_whitespace_bytes()),
        ("lines", _) => print(text.lines_bytes()),
        _ => panic!("{} is unknown", &*line),
    }
}
