//! Events: one byte of kind, then a body whose length the kind fixes.

use crate::fields::little_endian;

pub const SETTINGS: u8 = 0x00;
pub const OPEN: u8 = 0x01;
pub const SEND: u8 = 0x02;
pub const FINISH: u8 = 0x03;
pub const MEDIA_ERROR: u8 = 0x04;
pub const LINK: u8 = 0x05;
pub const COMRESET: u8 = 0x06;
pub const DATA: u8 = 0x07;
pub const REGISTER: u8 = 0x27;
pub const BIST: u8 = 0x58;

/// The longest body: that of a host register frame without its first byte.
pub const LONGEST_BODY: usize = 19;
const BIST_BODY: usize = 11;

/// What the first record asks for.
pub struct Settings {
    pub depth: u8,
    pub capacity: u32,
    pub mask: u16,
}

pub enum Event {
    Settings(Settings),
    Open(u8),
    Send,
    Finish(u32),
    MediaError {
        tag: u8,
        error: u8,
        sector: u32,
    },
    Link(u8),
    Comreset,
    /// Host data of the length due, all of this byte.
    Data(u8),
    Register([u8; LONGEST_BODY + 1]),
    Bist([u8; BIST_BODY + 1]),
}

/// The length of a kind's body, if the kind is known.
pub fn body_length(kind: u8) -> Option<usize> {
    match kind {
        SETTINGS => Some(7),
        OPEN | LINK | DATA => Some(1),
        SEND | COMRESET => Some(0),
        FINISH => Some(4),
        MEDIA_ERROR => Some(6),
        REGISTER => Some(LONGEST_BODY),
        BIST => Some(BIST_BODY),
        _ => None,
    }
}

/// An event of a known kind; of the body only the kind's own length counts.
pub fn parse(kind: u8, body: &[u8; LONGEST_BODY]) -> Event {
    match kind {
        SETTINGS => Event::Settings(Settings {
            depth: body[0],
            capacity: little_endian(&body[1..5]) as u32,
            mask: little_endian(&body[5..7]) as u16,
        }),
        OPEN => Event::Open(body[0]),
        SEND => Event::Send,
        FINISH => Event::Finish(little_endian(&body[..4]) as u32),
        MEDIA_ERROR => Event::MediaError {
            tag: body[0],
            error: body[1],
            sector: little_endian(&body[2..6]) as u32,
        },
        LINK => Event::Link(body[0]),
        COMRESET => Event::Comreset,
        DATA => Event::Data(body[0]),
        REGISTER => Event::Register(framed(kind, body)),
        BIST => Event::Bist(framed(kind, body)),
        _ => unreachable!("a known kind"),
    }
}

/// A host frame: its kind byte is the event's.
fn framed<const N: usize>(kind: u8, body: &[u8; LONGEST_BODY]) -> [u8; N] {
    let mut frame = [0; N];
    frame[0] = kind;
    frame[1..].copy_from_slice(&body[..N - 1]);
    frame
}
