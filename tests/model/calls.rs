//! Scripts of calls: text in, text out. A state, a medium and what of it is lent stay from line to line; docs/CALLS.md
//! has the table of lines and of answers.

pub mod bench;
pub mod check;
pub mod command;
mod pages;
pub mod shown;
pub mod words;

use self::bench::Bench;
use std::io::{self, BufRead, ErrorKind, Write};

/// All of the medium, and all of the reply buffer.
pub const MEDIUM: usize = 0x200_0000;
pub const REPLY: usize = 0x4000;

/// A line may have so many bytes before its end.
pub const LONGEST: usize = 0x1_0000;

/// What stands at the next place of an input.
enum Next {
    Line(Vec<u8>),
    /// More bytes than a line may have; they are passed over.
    TooLong,
    End,
    Failed,
}

/// Runs a whole script. The error is that of the output: an input that cannot be read is answered by `stop`.
pub fn run(input: &mut impl BufRead, output: &mut impl Write) -> io::Result<()> {
    let mut bench = Bench::new();
    loop {
        match next_line(input) {
            Next::End => return Ok(()),
            Next::Failed => return output.write_all(b"stop\n"),
            next => {
                for line in answers(&mut bench, &next) {
                    output.write_all(line.as_bytes())?;
                    output.write_all(b"\n")?;
                }
            }
        }
    }
}

/// The lines that a script prints.
pub fn text(script: &[u8]) -> Vec<u8> {
    let mut lines = Vec::new();
    run(&mut &script[..], &mut lines).expect("memory takes every line");
    lines
}

/// What a line prints, a string for each line of it.
fn answers(bench: &mut Bench, next: &Next) -> Vec<String> {
    let parsed = match next {
        Next::Line(line) => command::parse(line),
        _ => Err(()),
    };
    match parsed {
        Ok(None) => vec![],
        Ok(Some(command)) => bench.run(&command),
        Err(()) => vec!["what?".to_string()],
    }
}

/// The next line without its LF; at the end a line without one counts, if it has a byte.
fn next_line(input: &mut impl BufRead) -> Next {
    let (mut line, mut length) = (Vec::new(), 0usize);
    loop {
        let piece = match input.fill_buf() {
            Ok(piece) => piece,
            Err(error) if error.kind() == ErrorKind::Interrupted => continue,
            Err(_) => return Next::Failed,
        };
        if piece.is_empty() && length == 0 {
            return Next::End;
        }
        let end = piece.iter().position(|&c| c == b'\n');
        let more = &piece[..end.unwrap_or(piece.len())];
        let (used, done) =
            (more.len() + usize::from(end.is_some()), end.is_some() || piece.is_empty());
        length += used;
        line.extend(&more[..more.len().min(LONGEST + 1 - line.len())]);
        input.consume(used);
        if done && line.len() > LONGEST {
            return Next::TooLong;
        }
        if done {
            return Next::Line(line);
        }
    }
}
