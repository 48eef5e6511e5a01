//! An event program that is written by hand, to measure the proved one against: the same lines from the same files, with the
//! standard library alone.
//!
//!     events [trace] [--no-check]       standard input to standard output
//!     events count [--no-check]         no lines: how many events, how many are refused, bytes of replies
//!     events --make KIND EVENTS [A]     an event file to measure on (mixes.rs)
//!
//! Each call tests first whether the state contradicts itself, as the device's public calls do; `--no-check` leaves that out.

mod device;
mod echo;
mod host;
mod input;
mod lines;
mod mixes;
mod pages;
mod play;
mod replies;
mod state;
mod table;

use input::{kind, Input, Next};
use lines::Lines;
use play::Bench;
use replies::Replies;
use std::io::{self, Read, Write};
use std::process::ExitCode;

/// How a run went whose lines are all written.
enum End {
    Clean,
    /// behind `stop`, or refused settings
    Stopped,
    ReadFailed,
}

fn run(input: impl Read, out: impl Write, traced: bool, checked: bool) -> io::Result<End> {
    let mut input = Input::new(input);
    let mut lines = Lines::new(out, traced);
    let begun = match input.next() {
        Ok(Next::Event(record)) if record[0] == kind::SETTINGS => Bench::start(record, checked),
        Ok(_) => return lines.stop().map(|()| End::Stopped),
        Err(_) => return lines.stop().map(|()| End::ReadFailed),
    };
    let refusal = begun.as_ref().map_or_else(|&refusal| refusal as u8, |_| 0);
    lines.line(refusal, 0, &Replies::new())?;
    match begun {
        Ok(mut bench) => play_on(&mut bench, &mut input, &mut lines),
        Err(_) => lines.pass_on().map(|()| End::Stopped),
    }
}

fn play_on<R: Read, W: Write>(bench: &mut Bench, input: &mut Input<R>, lines: &mut Lines<W>) -> io::Result<End> {
    loop {
        match input.next() {
            Ok(Next::Event(event)) if event[0] != kind::SETTINGS => {
                let refusal = bench.play(event);
                lines.line(refusal, bench.device.state.outstanding, &bench.replies)?;
            }
            Ok(Next::End) => return lines.pass_on().map(|()| End::Clean),
            Ok(_) => return lines.stop().map(|()| End::Stopped),
            Err(_) => return lines.stop().map(|()| End::ReadFailed),
        }
    }
}

/// The calls alone, for what they cost; the settings record is not counted.
fn count(input: impl Read, checked: bool) -> io::Result<()> {
    let mut input = Input::new(input);
    let (mut played, mut refused, mut sent) = (0, 0, 0);
    let begun = match input.next()? {
        Next::Event(record) if record[0] == kind::SETTINGS => Bench::start(record, checked).ok(),
        _ => None,
    };
    if let Some(mut bench) = begun {
        while let Next::Event(event) = input.next()? {
            if event[0] == kind::SETTINGS {
                break;
            }
            played += 1;
            refused += usize::from(bench.play(event) != 0);
            sent += bench.replies.length();
        }
    }
    println!("{played} events, {refused} refused, {sent} bytes of replies");
    Ok(())
}

fn usage() -> ExitCode {
    eprintln!("usage: events [trace | count] [--no-check], or events --make KIND EVENTS [A]");
    ExitCode::from(2)
}

fn main() -> ExitCode {
    let words: Vec<String> = std::env::args().skip(1).collect();
    let words: Vec<&str> = words.iter().map(String::as_str).collect();
    if let ["--make", kind, rest @ ..] = &words[..] {
        let numbers: Option<Vec<u32>> = rest.iter().map(|word| word.parse().ok()).collect();
        return match numbers.map(|numbers| mixes::make(kind, &numbers)) {
            Some(Some(Ok(()))) => ExitCode::SUCCESS,
            Some(Some(Err(_))) => ExitCode::from(4),
            _ => usage(),
        };
    }
    if words.iter().any(|word| !["trace", "count", "--no-check"].contains(word)) {
        return usage();
    }
    let (traced, checked) = (words.contains(&"trace"), !words.contains(&"--no-check"));
    if words.contains(&"count") {
        return match count(io::stdin().lock(), checked) {
            Ok(()) => ExitCode::SUCCESS,
            Err(_) => ExitCode::from(3),
        };
    }
    match run(io::stdin().lock(), io::stdout().lock(), traced, checked) {
        Ok(End::Clean) => ExitCode::SUCCESS,
        Ok(End::Stopped) => ExitCode::from(1),
        Ok(End::ReadFailed) => ExitCode::from(3),
        Err(_) => ExitCode::from(4),
    }
}
