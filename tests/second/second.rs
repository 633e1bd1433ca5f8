//! An independent second program beside `replay`: it reads the same script from standard input and prints
//! the same answers. Written from the documents, not from the crates.
//!
//! All modules but `script`, `replay`, `vectors` (tests) and this one use neither `std` nor a heap.

mod book;
mod bytes;
mod check;
mod distinct;
mod md5;
mod message;
mod misauth;
mod misp;
mod node;
mod refusal;
mod replay;
mod router;
mod script;
mod server;
mod step;
#[cfg(test)]
mod vectors;

use replay::Replay;
use std::io::{self, BufRead, BufReader, BufWriter, Read, Stdin, Write};

/// The longest line, without its end.
const MOST_LINE: u64 = 300_000;

fn main() -> io::Result<()> {
    let mut input = BufReader::new(io::stdin());
    let mut output = BufWriter::new(io::stdout());
    let mut replay = Replay::new();
    while let Some(line) = next_line(&mut input)? {
        let answer = match line {
            Line::Whole(line) => replay.answer(&line),
            Line::TooLong => "error\n".to_string(),
        };
        output.write_all(answer.as_bytes())?;
        // Whoever writes the script line by line waits for the answer.
        if input.buffer().is_empty() {
            output.flush()?;
        }
    }
    output.flush()
}

enum Line {
    Whole(Vec<u8>),
    TooLong,
}

/// The next line without its end; the last one may lack it. Nothing at the end of the input.
fn next_line(input: &mut BufReader<Stdin>) -> io::Result<Option<Line>> {
    let mut line = Vec::new();
    input.by_ref().take(MOST_LINE + 1).read_until(b'\n', &mut line)?;
    if line.last() == Some(&b'\n') {
        line.pop();
    } else if line.len() as u64 > MOST_LINE {
        skip_line(input)?;
        return Ok(Some(Line::TooLong));
    } else if line.is_empty() {
        return Ok(None);
    }
    Ok(Some(Line::Whole(line)))
}

/// Past the next line's end, without keeping what is read.
fn skip_line(input: &mut BufReader<Stdin>) -> io::Result<()> {
    loop {
        let buffer = input.fill_buf()?;
        let (used, ended) = match buffer.iter().position(|byte| *byte == b'\n') {
            Some(at) => (at + 1, true),
            None => (buffer.len(), buffer.is_empty()),
        };
        input.consume(used);
        if ended {
            return Ok(());
        }
    }
}
