//! The event program: a file of events goes in, one line for each comes out.
//! A file is never held whole: events are read one after the other.

pub mod event;
pub mod line;
pub mod machine;

use self::event::{Event, LONGEST_BODY, SETTINGS};
use self::line::Style;
use self::machine::Machine;
use std::io::{self, ErrorKind, Read, Write};

/// The kind byte of the next event and its body, or why there is none.
enum Next {
    Event(Event),
    /// The input ends where an event could begin.
    End,
    /// An unknown kind or a short body.
    None,
    /// A read that fails.
    Unread,
}

/// How a run ends whose lines are all written; as a number, its exit status.
#[derive(Clone, Copy)]
pub enum End {
    /// All of the input was played.
    Played = 0,
    /// Refused settings, or `stop`, but for a read that failed.
    Stopped = 1,
    /// `stop`, as a read failed.
    Unread = 3,
}

/// Runs a whole input. The error is that of the output: an input that cannot
/// be read is answered by `stop`.
pub fn run(input: &mut impl Read, output: &mut impl Write, style: Style) -> io::Result<End> {
    let mut machine = match next_event(input) {
        Next::Event(Event::Settings(settings)) => match Machine::power_on(&settings) {
            Some(machine) => machine,
            None => return line::refused_settings(output).map(|()| End::Stopped),
        },
        Next::Unread => return line::stop(output).map(|()| End::Unread),
        _ => return line::stop(output).map(|()| End::Stopped),
    };
    line::powered(output)?;
    let mut number: u64 = 1;
    loop {
        match next_event(input) {
            Next::End => return Ok(End::Played),
            Next::Unread => return line::stop(output).map(|()| End::Unread),
            Next::None | Next::Event(Event::Settings(_)) => {
                return line::stop(output).map(|()| End::Stopped)
            }
            Next::Event(event) => {
                let refusal = machine.take(&event);
                line::answered(output, style, number, refusal, &machine)?;
            }
        }
        number += 1;
    }
}

fn next_event(input: &mut impl Read) -> Next {
    let mut kind = [0];
    match filled(input, &mut kind) {
        Some(0) => return Next::End,
        Some(_) => {}
        None => return Next::Unread,
    }
    let length = match event::body_length(kind[0]) {
        Some(length) => length,
        None => return Next::None,
    };
    let mut body = [0; LONGEST_BODY];
    match filled(input, &mut body[..length]) {
        Some(have) if have == length => Next::Event(event::parse(kind[0], &body)),
        Some(_) => Next::None,
        None => Next::Unread,
    }
}

/// How many bytes came before the input's end, or `None` if reading fails.
fn filled(input: &mut impl Read, buffer: &mut [u8]) -> Option<usize> {
    let mut have = 0;
    while have < buffer.len() {
        match input.read(&mut buffer[have..]) {
            Ok(0) => break,
            Ok(more) => have += more,
            Err(error) if error.kind() == ErrorKind::Interrupted => {}
            Err(_) => return None,
        }
    }
    Some(have)
}

/// The lines of an input that is held in memory, and the exit status behind them.
pub fn text(input: &[u8], style: Style) -> (Vec<u8>, i32) {
    let mut lines = Vec::new();
    let end = run(&mut &input[..], &mut lines, style).expect("memory takes every line");
    (lines, end as i32)
}

/// A settings record.
pub fn settings(depth: u8, capacity: u32, mask: u16) -> Vec<u8> {
    let body = [&[depth][..], &capacity.to_le_bytes(), &mask.to_le_bytes()].concat();
    [&[SETTINGS], &body[..]].concat()
}
