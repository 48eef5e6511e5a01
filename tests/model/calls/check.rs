//! Scripts held against what stands behind `->` on their lines.

use super::bench::Bench;
use super::words;
use super::{answers, Next, LONGEST};
use std::fs;
use std::io;

/// What was found in a file.
#[derive(Default)]
pub struct Found {
    /// lines that say what they are to print
    pub asked: u64,
    /// those that print something else
    pub differing: u64,
    /// lines without `->` that print `what?`, and comments with a `->`; one more if no line asks
    pub faults: u64,
}

/// Runs a script from the all-zero state; each line that differs or is at fault is told, and behind them a script
/// of which no line says what it is to print.
pub fn file(path: &str) -> io::Result<Found> {
    let script = fs::read(path)?;
    let (mut bench, mut found) = (Bench::new(), Found::default());
    for (line, number) in lines(&script).zip(1u64..) {
        let got = answers(&mut bench, &next(line)).join(" / ");
        match asked(line) {
            Some(wanted) => {
                found.asked += 1;
                if wanted != got.as_bytes() {
                    found.differing += 1;
                    let wanted = String::from_utf8_lossy(wanted);
                    println!("{path}:{number}:\n  asked {wanted}\n  got   {got}");
                }
            }
            None if got == "what?" => {
                found.faults += 1;
                println!("{path}:{number}:\n  fault what? is printed, and not asked for");
            }
            None => {}
        }
        if words::comment(line).windows(2).any(|pair| pair == b"->") {
            found.faults += 1;
            println!("{path}:{number}:\n  fault a -> behind # asks for nothing");
        }
    }
    if found.asked == 0 {
        found.faults += 1;
        println!("{path}:\n  fault no line says what it is to print");
    }
    Ok(found)
}

/// The lines of a script; a last one without LF counts, if it has a byte.
fn lines(script: &[u8]) -> impl Iterator<Item = &[u8]> {
    let last = script.ends_with(b"\n") || script.is_empty();
    let count = script.split(|&c| c == b'\n').count() - usize::from(last);
    script.split(|&c| c == b'\n').take(count)
}

fn next(line: &[u8]) -> Next {
    match line.len() <= LONGEST {
        true => Next::Line(line.to_vec()),
        false => Next::TooLong,
    }
}

/// What a line says that it is to print: one that is too long says nothing.
fn asked(line: &[u8]) -> Option<&[u8]> {
    Some(line).filter(|line| line.len() <= LONGEST).and_then(words::wanted)
}
