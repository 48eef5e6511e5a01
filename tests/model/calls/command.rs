//! What a line of a script asks for.

use super::words::Words;
use super::{MEDIUM, REPLY};
use crate::device::{Echo, Entry, Record};
use crate::frames::{self, Layout};
use crate::pages;

/// A host frame may be this long, and the payload of a `data` line.
pub const MOST_FRAME: usize = REPLY;
const MOST_PAYLOAD: usize = 0x2004;

pub enum Command {
    Power {
        depth: u32,
        capacity: u32,
        mask: u16,
    },
    Frame(Vec<u8>),
    Open(u8),
    Send,
    Finish(u32),
    MediaError {
        tag: u8,
        error: u8,
        sector: u32,
    },
    Link(u8),
    Tally([u32; 16]),
    Comreset,
    Counter(u16),
    Count,
    /// A queued command, judged without a medium.
    Judge(Vec<u8>),
    Lend {
        medium: usize,
        reply: usize,
    },
    Fill(u8),
    Set(Part),
    Show,
    Medium {
        at: usize,
        size: usize,
    },
    Read(Reading),
    Write {
        room: usize,
        what: Writing,
    },
}

/// A part of the state that is set by hand.
pub enum Part {
    Depth(u32),
    Capacity(u32),
    Mask(u16),
    Outstanding(u32),
    Phase(u32),
    Halted(bool),
    Held(bool),
    Value(usize, u32),
    Entry(usize, Entry),
    Record(Record),
}

pub enum Reading {
    Frame(Vec<u8>),
    Pieces(Vec<u8>),
    ErrorPage(Vec<u8>),
    Counter(u16, Vec<u8>),
    Row(u16),
    Queued { features: u8, features_high: u8, count: u16 },
}

pub enum Writing {
    Frame { layout: &'static Layout, payload: Vec<u8>, values: Vec<u64> },
    ErrorPage(pages::ErrorPage),
    Counters { mask: u16, values: [u32; 16] },
}

impl Command {
    /// A call of the device that hands back a state.
    pub fn is_call(&self) -> bool {
        match self {
            Command::Power { .. } | Command::Frame(_) | Command::Open(_) | Command::Send => true,
            Command::Finish(_) | Command::MediaError { .. } | Command::Link(_) => true,
            Command::Tally(_) | Command::Comreset => true,
            _ => false,
        }
    }
}

/// What a line asks for: `Ok(None)` is nothing at all, an error is `what?`.
pub fn parse(line: &[u8]) -> Result<Option<Command>, ()> {
    let mut words = Words::of(line);
    match words.word() {
        None => Ok(None),
        Some(first) => {
            let command = named(first, &mut words).filter(|_| words.end().is_some());
            command.map(Some).ok_or(())
        }
    }
}

fn named(name: &[u8], w: &mut Words) -> Option<Command> {
    Some(match name {
        b"power" => Command::Power { depth: w.long()?, capacity: w.long()?, mask: w.short()? },
        b"frame" => Command::Frame(w.bytes().filter(|bytes| bytes.len() <= MOST_FRAME)?),
        b"data" => data(w.size(MOST_PAYLOAD)?, w.byte()?),
        b"open" => Command::Open(w.byte()?),
        b"send" => Command::Send,
        b"finish" => Command::Finish(w.long()?),
        b"media" => Command::MediaError { tag: w.byte()?, error: w.byte()?, sector: w.long()? },
        b"link" => Command::Link(w.byte()?),
        b"tally" => Command::Tally(amounts(w)?),
        b"comreset" => Command::Comreset,
        b"counter" => Command::Counter(w.short()?),
        b"count" => Command::Count,
        b"judge" => Command::Judge(w.bytes().filter(|bytes| is_queued(bytes))?),
        b"lend" => Command::Lend { medium: w.size(MEDIUM)?, reply: w.size(REPLY)? },
        b"fill" => Command::Fill(w.byte()?),
        b"set" => Command::Set(part(w)?),
        b"show" => Command::Show,
        b"medium" => medium(w.size(MEDIUM)?, w.size(MEDIUM)?)?,
        b"read" => Command::Read(reading(w)?),
        b"write" => writing(w)?,
        _ => return None,
    })
}

fn amounts(w: &mut Words) -> Option<[u32; 16]> {
    let mut amounts = [0; 16];
    for amount in &mut amounts {
        *amount = w.long()?;
    }
    Some(amounts)
}

/// A host data frame whose payload counts up.
fn data(size: usize, first: u8) -> Command {
    let header = [frames::DATA, 0, 0, 0];
    Command::Frame([&header[..], &counting(size, first)].concat())
}

/// So many bytes that count up, modulo 256.
pub fn counting(size: usize, first: u8) -> Vec<u8> {
    (0..size).map(|i| first.wrapping_add(i as u8)).collect()
}

/// A host register frame of a queued command.
fn is_queued(bytes: &[u8]) -> bool {
    bytes.len() == 20 && bytes[0] == 0x27 && bytes[1] & 0x80 != 0 && bytes[2] & 0xFE == 0x60
}

fn medium(at: usize, size: usize) -> Option<Command> {
    Some(Command::Medium { at, size }).filter(|_| at + size <= MEDIUM)
}

fn part(w: &mut Words) -> Option<Part> {
    Some(match w.word()? {
        b"depth" => Part::Depth(w.long()?),
        b"capacity" => Part::Capacity(w.long()?),
        b"mask" => Part::Mask(w.short()?),
        b"outstanding" => Part::Outstanding(w.long()?),
        b"phase" => Part::Phase(w.long()?),
        b"halted" => Part::Halted(w.flag()?),
        b"held" => Part::Held(w.flag()?),
        b"value" => Part::Value(w.size(15)?, w.long()?),
        b"entry" => Part::Entry(w.size(31)?, entry(w)?),
        b"record" => Part::Record(record(w)?),
        _ => return None,
    })
}

fn entry(w: &mut Words) -> Option<Entry> {
    Some(Entry {
        write: w.flag()?,
        first: w.long()?,
        count: w.long()?,
        moved: w.long()?,
        features: w.byte()?,
        features_high: w.byte()?,
        echo: echo(w)?,
    })
}

fn record(w: &mut Words) -> Option<Record> {
    Some(Record { set: w.flag()?, nq: w.flag()?, tag: w.byte()?, error: w.byte()?, echo: echo(w)? })
}

fn echo(w: &mut Words) -> Option<Echo> {
    let mut bytes = [0; 9];
    for byte in &mut bytes {
        *byte = w.byte()?;
    }
    Some(Echo(bytes))
}

fn reading(w: &mut Words) -> Option<Reading> {
    Some(match w.word()? {
        b"frame" => Reading::Frame(w.bytes()?),
        b"pieces" => Reading::Pieces(w.bytes()?),
        b"10" => Reading::ErrorPage(w.bytes()?),
        b"11" => Reading::Counter(w.short()?, w.bytes()?),
        b"row" => Reading::Row(w.short()?),
        b"queued" => {
            Reading::Queued { features: w.byte()?, features_high: w.byte()?, count: w.short()? }
        }
        _ => return None,
    })
}

fn writing(w: &mut Words) -> Option<Command> {
    let what = w.word()?;
    let room = w.size(REPLY)?;
    let what = match what {
        b"frame" => frame(w)?,
        b"10" => Writing::ErrorPage(error_page(w)?),
        b"11" => Writing::Counters { mask: w.short()?, values: counters(w)? },
        _ => return None,
    };
    Some(Command::Write { room, what })
}

/// A frame by its kind and fields; a data frame by the payload that counts up.
fn frame(w: &mut Words) -> Option<Writing> {
    let layout = frames::layout(w.byte()?)?;
    let payload = match layout.kind {
        frames::DATA => counting(w.size(REPLY)?, w.byte()?),
        _ => vec![],
    };
    let values = layout.fields.iter().map(|field| {
        let name = text_name(field.name);
        w.named(&name, top(field.name, layout.kind))
    });
    let values = values.collect::<Option<Vec<u64>>>()?;
    Some(Writing::Frame { layout, payload, values })
}

/// A field's name as a script has it: lower case, and one name for a byte count.
pub fn text_name(name: &str) -> String {
    name.to_lowercase().replace("pio_", "")
}

/// The greatest number that may be handed in for a field; not all can be written.
pub fn top(name: &str, kind: u8) -> u64 {
    match name {
        "C" | "A" | "I" | "D" | "NQ" => 1,
        "lba" => u64::MAX,
        "count" | "pio_byte_count" => 0xFFFF,
        "sactive" | "offset" | "byte_count" => 0xFFFF_FFFF,
        "tag" if kind == 0x41 => 0xFFFF_FFFF,
        _ => 0xFF,
    }
}

fn error_page(w: &mut Words) -> Option<pages::ErrorPage> {
    let mut values = [0; 7];
    for (value, name) in values.iter_mut().zip(pages::error_names()) {
        *value = w.named(&text_name(name), top(name, 0))?;
    }
    Some(values)
}

fn counters(w: &mut Words) -> Option<[u32; 16]> {
    let mut values = [0; 16];
    for value in &mut values {
        *value = w.long()?;
    }
    Some(values)
}
