//! An event file, an event at a time.

use std::io::{self, Read};

const BUFFER: usize = 1 << 16;

/// Kinds of events, but for the frames, whose kind is their first byte.
pub mod kind {
    pub const SETTINGS: u8 = 0x00;
    pub const OPEN: u8 = 0x01;
    pub const SEND: u8 = 0x02;
    pub const FINISH: u8 = 0x03;
    pub const MEDIA_ERROR: u8 = 0x04;
    pub const LINK_EVENT: u8 = 0x05;
    pub const COMRESET: u8 = 0x06;
    pub const HOST_DATA: u8 = 0x07;
    pub const REGISTER: u8 = 0x27;
    pub const BIST: u8 = 0x58;
}

/// How long an event is, its kind included.
fn length(kind: u8) -> Option<usize> {
    Some(match kind {
        kind::SETTINGS => 8,
        kind::OPEN | kind::LINK_EVENT | kind::HOST_DATA => 2,
        kind::SEND | kind::COMRESET => 1,
        kind::FINISH => 5,
        kind::MEDIA_ERROR => 7,
        kind::REGISTER => 20,
        kind::BIST => 12,
        _ => return None,
    })
}

pub enum Next<'a> {
    Event(&'a [u8]),
    End,
    /// An unknown kind, or a short body.
    Broken,
}

pub struct Input<R> {
    source: R,
    bytes: Box<[u8; BUFFER]>,
    start: usize,
    end: usize,
}

impl<R: Read> Input<R> {
    pub fn new(source: R) -> Input<R> {
        Input { source, bytes: Box::new([0; BUFFER]), start: 0, end: 0 }
    }

    #[inline]
    pub fn next(&mut self) -> io::Result<Next<'_>> {
        if !self.has(1)? {
            return Ok(Next::End);
        }
        let Some(length) = length(self.bytes[self.start]) else {
            return Ok(Next::Broken);
        };
        if !self.has(length)? {
            return Ok(Next::Broken);
        }
        let from = self.start;
        self.start += length;
        Ok(Next::Event(&self.bytes[from..from + length]))
    }

    /// Whether so many bytes are still to come; they stand in the buffer then.
    #[inline]
    fn has(&mut self, wanted: usize) -> io::Result<bool> {
        Ok(self.end - self.start >= wanted || self.read_on(wanted)?)
    }

    #[cold]
    fn read_on(&mut self, wanted: usize) -> io::Result<bool> {
        self.bytes.copy_within(self.start..self.end, 0);
        self.end -= self.start;
        self.start = 0;
        while self.end < wanted {
            match self.source.read(&mut self.bytes[self.end..]) {
                Ok(0) => return Ok(false),
                Ok(more) => self.end += more,
                Err(error) if error.kind() == io::ErrorKind::Interrupted => {}
                Err(error) => return Err(error),
            }
        }
        Ok(true)
    }
}
