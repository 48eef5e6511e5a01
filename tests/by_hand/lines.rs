//! The line of an event: its number, the refusal, the outstanding tags, and each reply.

use crate::replies::Replies;
use std::io::{self, Write};

/// So many bytes of lines are written at once.
const ENOUGH: usize = 1 << 15;

/// The longest line without the bytes of its replies: two numbers, the tags, and three replies.
const LINE_LIMIT: usize = 64;
const LOWER: &[u8; 16] = b"0123456789abcdef";

/// 1 in each byte.
const ONES: u64 = 0x0101_0101_0101_0101;

const DIGITS: usize = 20;

/// A number as its digits stand in a line, counted up in place. There is room behind them, so that so many bytes can always be
/// taken from the first digit on.
struct Numeral {
    digits: [u8; 2 * DIGITS],
    /// Where the first digit stands.
    from: usize,
}

impl Numeral {
    const ZERO: Numeral = Numeral { digits: [b'0'; 2 * DIGITS], from: DIGITS - 1 };

    #[inline]
    fn count_up(&mut self) {
        let mut at = DIGITS - 1;
        while self.digits[at] == b'9' && at > 0 {
            self.digits[at] = b'0';
            at -= 1;
        }
        self.digits[at] += 1;
        self.from = self.from.min(at);
    }
}

/// What is laid of a line, in room for all of it but the bytes of its replies.
struct Part<'a> {
    room: &'a mut [u8; LINE_LIMIT],
    length: usize,
}

impl Part<'_> {
    #[inline]
    fn push<const N: usize>(&mut self, more: [u8; N]) {
        self.room[self.length..][..N].copy_from_slice(&more);
        self.length += N;
    }

    #[inline]
    fn numeral(&mut self, number: &Numeral) {
        self.room[self.length..][..DIGITS].copy_from_slice(&number.digits[number.from..][..DIGITS]);
        self.length += DIGITS - number.from;
    }

    /// A number below 10,000: four digits are laid from the first on that counts, and their end is the number's.
    #[inline]
    fn decimal(&mut self, number: u16) {
        if number < 10 {
            return self.push([b'0' + number as u8]);
        }
        let digit = |power: u16| b'0' + (number / power % 10) as u8;
        let digits = u32::from_le_bytes([digit(1000), digit(100), digit(10), digit(1)]);
        let leading = usize::from(number < 1000) + usize::from(number < 100);
        self.push((digits >> (8 * leading)).to_le_bytes());
        self.length -= leading;
    }

    #[inline]
    fn refusal(&mut self, refusal: u8) {
        if refusal == 0 {
            return self.push(*b" 0 ");
        }
        self.push([b' ']);
        self.decimal(u16::from(refusal));
        self.push([b' ']);
    }

    /// All eight digits at once: a byte for each, and 7 more where a letter stands.
    #[inline]
    fn tags(&mut self, outstanding: u32) {
        let mut digits = u64::from(outstanding);
        digits = (digits | digits << 16) & 0x0000_FFFF_0000_FFFF;
        digits = (digits | digits << 8) & 0x00FF_00FF_00FF_00FF;
        digits = (digits | digits << 4) & 0x0F0F_0F0F_0F0F_0F0F;
        let letters = (digits + 6 * ONES) >> 4 & ONES;
        self.push((digits + 0x30 * ONES + 7 * letters).to_be_bytes());
    }

    /// Of each kind but data all frames have one length.
    #[inline]
    fn reply(&mut self, frame: &[u8]) {
        match frame[0] {
            0x34 => self.push(*b" 34:20"),
            0x39 => self.push(*b" 39:4"),
            0x41 => self.push(*b" 41:28"),
            0x5F => self.push(*b" 5F:20"),
            0xA1 => self.push(*b" A1:8"),
            _ => {
                self.push(*b" 46:");
                self.decimal(frame.len() as u16);
            }
        }
    }
}

pub struct Lines<W> {
    out: W,
    text: Box<[u8; 2 * ENOUGH]>,
    length: usize,
    number: Numeral,
    /// Whether the bytes of each reply stand in its line.
    traced: bool,
}

impl<W: Write> Lines<W> {
    pub fn new(out: W, traced: bool) -> Lines<W> {
        Lines { out, text: Box::new([0; 2 * ENOUGH]), length: 0, number: Numeral::ZERO, traced }
    }

    #[inline]
    pub fn line(&mut self, refusal: u8, outstanding: u32, replies: &Replies) -> io::Result<()> {
        let mut part = part_of(&mut self.text, self.length);
        part.numeral(&self.number);
        part.refusal(refusal);
        part.tags(outstanding);
        for frame in replies.frames() {
            part.reply(frame);
            if self.traced {
                self.length += part.length;
                self.length += trace(&mut self.text[self.length..], frame);
                part = part_of(&mut self.text, self.length);
            }
        }
        part.push([b'\n']);
        self.length += part.length;
        self.number.count_up();
        match self.length < ENOUGH {
            true => Ok(()),
            false => self.pass_on(),
        }
    }

    pub fn stop(&mut self) -> io::Result<()> {
        let mut part = part_of(&mut self.text, self.length);
        part.push(*b"stop\n");
        self.length += part.length;
        self.pass_on()
    }

    pub fn pass_on(&mut self) -> io::Result<()> {
        self.out.write_all(&self.text[..self.length])?;
        self.length = 0;
        self.out.flush()
    }
}

/// The room for a line: a line begins below `ENOUGH`, and all replies of a call are no longer than the reply buffer.
#[inline]
fn part_of(text: &mut [u8; 2 * ENOUGH], from: usize) -> Part<'_> {
    let room = text[from..].first_chunk_mut().expect("room for a line");
    Part { room, length: 0 }
}

/// The bytes of a reply; how long they are in digits.
fn trace(room: &mut [u8], frame: &[u8]) -> usize {
    room[0] = b'=';
    for (digits, byte) in room[1..].chunks_exact_mut(2).zip(frame) {
        digits[0] = LOWER[usize::from(byte >> 4)];
        digits[1] = LOWER[usize::from(byte & 15)];
    }
    1 + 2 * frame.len()
}
