//! Reply frames, one behind the other in the reply buffer.

use crate::echo::Echo;
use crate::pages::Page;

/// The longest data frame: 16 sectors behind four bytes.
pub const DATA_LIMIT: usize = 8192;
pub const BUFFER: usize = 4 + DATA_LIMIT;

/// A sweep, a PIO Setup and a page are the most that a call sends.
const MOST: usize = 3;

/// The head of a data frame.
pub const DATA: [u8; 4] = [0x46, 0, 0, 0];

const GOOD: u8 = 0x40;
const BAD: u8 = 0x41;
const INTERRUPT: u8 = 0x40;
const TO_HOST: u8 = 0x20;

/// The reply buffer, and where in it the frames of the last call end.
pub struct Replies {
    bytes: [u8; BUFFER],
    ends: [usize; MOST],
    count: usize,
}

impl Replies {
    pub fn new() -> Replies {
        Replies { bytes: [0; BUFFER], ends: [0; MOST], count: 0 }
    }

    pub fn clear(&mut self) {
        self.count = 0;
    }

    pub fn frames(&self) -> impl Iterator<Item = &[u8]> {
        let mut from = 0;
        self.ends[..self.count].iter().map(move |&end| &self.bytes[std::mem::replace(&mut from, end)..end])
    }

    /// Of all frames together.
    pub fn length(&self) -> usize {
        if self.count == 0 {
            0
        } else {
            self.ends[self.count - 1]
        }
    }

    /// Room for one more frame, behind those that are there.
    #[inline]
    fn room<const N: usize>(&mut self) -> &mut [u8; N] {
        self.room_of(N).try_into().expect("as long as asked")
    }

    #[inline]
    fn room_of(&mut self, length: usize) -> &mut [u8] {
        let from = self.length();
        self.ends[self.count] = from + length;
        self.count += 1;
        &mut self.bytes[from..from + length]
    }

    pub fn register(&mut self, status: Result<(), u8>, echo: &Echo) {
        let (interrupt, status, error) = match status {
            Ok(()) => (0, GOOD, 0),
            Err(error) => (INTERRUPT, BAD, error),
        };
        self.repeat([0x34, interrupt, status, error], [0; 6], echo);
    }

    /// A frame of 20 bytes that repeats a command's.
    fn repeat(&mut self, head: [u8; 4], tail: [u8; 6], echo: &Echo) {
        let frame: &mut [u8; 20] = self.room();
        frame[..4].copy_from_slice(&head);
        echo.lay(frame);
        frame[14..].copy_from_slice(&tail);
    }

    pub fn signature(&mut self) {
        self.repeat([0x34, 0, GOOD, 0x01], [0; 6], &Echo { low: 1, high: 0, tail: 1 });
    }

    pub fn pio_setup(&mut self, echo: &Echo) {
        let [low, high] = 512u16.to_le_bytes();
        self.repeat([0x5F, INTERRUPT | TO_HOST, 0x48, 0], [0, GOOD, low, high, 0, 0], echo);
    }

    pub fn dma_setup(&mut self, tag: u8, write: bool, bytes: u32) {
        let frame: &mut [u8; 28] = self.room();
        *frame = [0; 28];
        frame[0] = 0x41;
        frame[1] = if write { 0 } else { TO_HOST };
        frame[4] = tag;
        frame[20..24].copy_from_slice(&bytes.to_le_bytes());
    }

    pub fn activate(&mut self) {
        *self.room() = [0x39, 0, 0, 0];
    }

    pub fn data(&mut self, payload: &[u8]) {
        let frame = self.room_of(4 + payload.len());
        frame[..4].copy_from_slice(&DATA);
        frame[4..].copy_from_slice(payload);
    }

    /// Room for a log page, in a data frame.
    pub fn page(&mut self) -> &mut Page {
        let frame: &mut [u8; 4 + 512] = self.room();
        let (head, page) = frame.split_first_chunk_mut().expect("a frame of data");
        *head = DATA;
        page.try_into().expect("a page")
    }

    fn device_bits(&mut self, interrupt: u8, status: u8, error: u8, active: u32) {
        let frame: &mut [u8; 8] = self.room();
        frame[..4].copy_from_slice(&[0xA1, interrupt, status, error]);
        frame[4..].copy_from_slice(&active.to_le_bytes());
    }

    pub fn finished(&mut self, set: u32) {
        self.device_bits(INTERRUPT, GOOD, 0, set);
    }

    pub fn failed(&mut self, error: u8) {
        self.device_bits(INTERRUPT, BAD, error, 0);
    }

    pub fn sweep(&mut self) {
        self.device_bits(0, GOOD, 0, u32::MAX);
    }
}
