//! The state of the device: settings, flow, entries, error record, counters.
//! The fields are plain integers, so a state can say things that contradict
//! each other; `clauses` lists them all.

use crate::frames::{self, Frame};
use crate::pages;

/// Fixed limits ("Numbers").
pub const TAGS: u32 = 32;
pub const TOP_CAPACITY: u32 = 65_536;
pub const SECTOR: usize = 512;
/// A data frame carries at most this many bytes.
pub const FRAME_BYTES: usize = 8_192;
/// A Dword: what has moved is a multiple of it.
pub const DWORD: u32 = 4;
/// The shortest reply buffer that may be lent.
pub const REPLY_ROOM: usize = 8_196;

/// Row of counter 001h, which error bit 7 of a media error adds to.
pub const ROW_001H: usize = 0;
/// Row of counter 00Ah, which COMRESET adds to.
pub const ROW_00AH: usize = 9;

/// A command's bytes 4, 5, 6, 7, 8, 9, 10, 12, 13: those that replies and the
/// error record repeat.
#[derive(Clone, Copy, Debug, Default, PartialEq)]
pub struct Echo(pub [u8; 9]);

impl Echo {
    /// Of a 27h frame that was read.
    pub fn of(command: &Frame) -> Echo {
        let lba = command.get("lba").to_le_bytes();
        let device = command.get("device") as u8;
        let count = command.get("count").to_le_bytes();
        Echo([lba[0], lba[1], lba[2], device, lba[3], lba[4], lba[5], count[0], count[1]])
    }

    /// Bytes 4-6 are LBA 0-23, bytes 8-10 LBA 24-47.
    pub fn lba(&self) -> u64 {
        let b = &self.0;
        u64::from_le_bytes([b[0], b[1], b[2], b[4], b[5], b[6], 0, 0])
    }

    pub fn device(&self) -> u8 {
        self.0[3]
    }

    /// Bytes 12-13.
    pub fn count(&self) -> u16 {
        u16::from_le_bytes([self.0[7], self.0[8]])
    }

    /// A queued command's tag: bits 7:3 of byte 12.
    pub fn tag(&self) -> u32 {
        u32::from(frames::queued_tag(self.count()))
    }

    /// The same bytes, with another sector in bytes 4-6 and 8-10.
    pub fn at_sector(&self, sector: u32) -> Echo {
        let lba = u64::from(sector).to_le_bytes();
        let b = &self.0;
        Echo([lba[0], lba[1], lba[2], b[3], lba[3], lba[4], lba[5], b[7], b[8]])
    }
}

/// One queued command. An idle tag's entry is all zeros.
#[derive(Clone, Copy, Debug, Default, PartialEq)]
pub struct Entry {
    pub write: bool,
    pub first: u32,
    pub count: u32,
    /// Bytes that data frames have carried so far.
    pub moved: u32,
    pub features: u8,
    pub features_high: u8,
    pub echo: Echo,
}

impl Entry {
    /// The sector behind the last one, without wrap.
    pub fn end(&self) -> u64 {
        u64::from(self.first) + u64::from(self.count)
    }

    /// All bytes of the command, without wrap.
    pub fn bytes(&self) -> u64 {
        u64::from(self.count) * SECTOR as u64
    }

    pub fn all_moved(&self) -> bool {
        u64::from(self.moved) == self.bytes()
    }

    /// The bytes that are left, in a state that does not contradict itself:
    /// there no more has moved than the command has.
    pub fn left(&self) -> usize {
        (self.bytes() - u64::from(self.moved)) as usize
    }

    /// Bytes of the next frame to the host, or of the longest one that it may
    /// send: min(8,192, what is left).
    pub fn due(&self) -> usize {
        self.left().min(FRAME_BYTES)
    }

    /// Where on the medium the next byte goes to or comes from.
    pub fn place(&self) -> usize {
        SECTOR * self.first as usize + self.moved as usize
    }

    /// The sectors that the command's bytes name.
    pub fn named_sectors(&self) -> u32 {
        frames::queued_sectors(self.features, self.features_high)
    }
}

/// What page 10h tells. Blank is all zeros in memory.
#[derive(Clone, Copy, Debug, Default, PartialEq)]
pub struct Record {
    pub set: bool,
    pub nq: bool,
    pub tag: u8,
    pub error: u8,
    pub echo: Echo,
}

#[derive(Clone, Copy, Debug, Default, PartialEq)]
pub struct State {
    pub depth: u32,
    pub capacity: u32,
    /// Bit r: row r of page 11h is kept.
    pub mask: u16,
    /// Bit t: tag t is outstanding.
    pub outstanding: u32,
    /// 0: no phase is open; otherwise the open tag + 1.
    pub phase: u32,
    pub halted: bool,
    pub held: bool,
    pub entries: [Entry; TAGS as usize],
    pub record: Record,
    pub counters: [u32; 16],
}

impl State {
    /// A tag of 32 or more is never outstanding.
    pub fn is_outstanding(&self, tag: u32) -> bool {
        tag < TAGS && self.outstanding >> tag & 1 == 1
    }

    /// The tags outstanding, lowest first.
    pub fn tags(&self) -> impl Iterator<Item = u32> + '_ {
        (0..TAGS).filter(move |&tag| self.is_outstanding(tag))
    }

    pub fn entry(&self, tag: u32) -> &Entry {
        &self.entries[tag as usize]
    }

    /// The tag whose phase is open.
    pub fn open_tag(&self) -> Option<u32> {
        self.phase.checked_sub(1)
    }

    /// The entry whose phase is open, in a state that does not contradict
    /// itself: there the open tag is outstanding.
    pub fn open_entry(&self) -> Option<&Entry> {
        self.open_tag().map(|tag| self.entry(tag))
    }

    pub fn keeps(&self, row: usize) -> bool {
        self.mask >> row & 1 == 1
    }

    /// Counters stay at the top once there.
    pub fn count_one(&mut self, row: usize) {
        self.counters[row] = self.counters[row].saturating_add(1);
    }

    /// As many events at once, in numbers that have room for the sum.
    pub fn count_many(&mut self, row: usize, amount: u32) {
        let sum = u64::from(self.counters[row]) + u64::from(amount);
        self.counters[row] = sum.min(0xFFFF_FFFF) as u32;
    }

    /// The value of a counter by its number, or `None` if it has no row or the
    /// row is not kept: absent, never zero.
    pub fn counter(&self, number: u16) -> Option<u32> {
        pages::row_of(number).filter(|&row| self.keeps(row)).map(|row| self.counters[row])
    }

    /// Nothing is outstanding any more and no phase is open.
    fn forget_commands(&mut self) {
        self.outstanding = 0;
        self.phase = 0;
        self.entries = Default::default();
    }

    /// One command is finished: its entry goes idle.
    pub fn forget(&mut self, tag: u32) {
        self.outstanding &= !(1 << tag);
        self.entries[tag as usize] = Entry::default();
    }

    /// Halt: every outstanding command is given up, an open phase closes, the
    /// error record is set.
    pub fn halt(&mut self, record: Record) {
        self.forget_commands();
        self.halted = true;
        self.record = record;
    }

    /// What SRST and COMRESET do alike: everything outstanding is dropped, an
    /// open phase closes, halt and record are cleared. Counters stay.
    pub fn reset(&mut self) {
        self.forget_commands();
        self.halted = false;
        self.record = Record::default();
    }

    /// So many bytes of the open phase's command have been carried; at
    /// nothing left the phase closes.
    pub fn move_on(&mut self, tag: u32, bytes: usize) {
        let entry = &mut self.entries[tag as usize];
        entry.moved += bytes as u32;
        if entry.all_moved() {
            self.phase = 0;
        }
    }
}
