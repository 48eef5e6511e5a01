//! What is held of each tag, by columns: the test of a state goes over all tags at once.

use crate::echo::Echo;
use crate::state::{Settings, SECTOR, TAGS};

/// A queued command; all zeros for an idle tag.
#[derive(Clone, Copy)]
pub struct Entry {
    pub first: u32,
    pub count: u32,
    /// In bytes.
    pub moved: u32,
    pub write: bool,
    pub features: u16,
    pub echo: Echo,
}

impl Entry {
    pub fn whole(&self) -> u32 {
        self.count * SECTOR
    }

    pub fn left(&self) -> u32 {
        self.whole() - self.moved
    }
}

/// Columns of the table, all zeros where a tag is idle.
pub struct Table {
    first: [u32; TAGS],
    count: [u32; TAGS],
    moved: [u32; TAGS],
    /// Bytes 4 to 7 of the command, and bytes 8 to 10.
    low: [u32; TAGS],
    high: [u32; TAGS],
    /// Bytes 12 and 13 of the command, and above them its features bytes.
    tail: [u32; TAGS],
    /// Bit t: tag t is a write.
    writes: u32,
}

impl Table {
    pub fn empty() -> Table {
        Table {
            first: [0; TAGS],
            count: [0; TAGS],
            moved: [0; TAGS],
            low: [0; TAGS],
            high: [0; TAGS],
            tail: [0; TAGS],
            writes: 0,
        }
    }

    #[inline]
    pub fn entry(&self, tag: u8) -> Entry {
        let at = usize::from(tag) % TAGS;
        Entry {
            first: self.first[at],
            count: self.count[at],
            moved: self.moved[at],
            write: self.writes >> at & 1 == 1,
            features: (self.tail[at] >> 16) as u16,
            echo: Echo { low: self.low[at], high: self.high[at], tail: self.tail[at] as u16 },
        }
    }

    /// Of an idle tag.
    #[inline]
    pub fn put(&mut self, tag: u8, entry: Entry) {
        let at = usize::from(tag) % TAGS;
        self.first[at] = entry.first;
        self.count[at] = entry.count;
        self.moved[at] = entry.moved;
        self.writes |= u32::from(entry.write) << at;
        (self.low[at], self.high[at]) = (entry.echo.low, entry.echo.high);
        self.tail[at] = u32::from(entry.echo.tail) | u32::from(entry.features) << 16;
    }

    #[inline]
    pub fn move_on(&mut self, tag: u8, bytes: usize) {
        self.moved[usize::from(tag) % TAGS] += bytes as u32;
    }

    #[inline]
    pub fn clear(&mut self, set: u32) {
        let mut rest = set;
        while rest != 0 {
            let at = rest.trailing_zeros() as usize;
            (self.first[at], self.count[at], self.moved[at]) = (0, 0, 0);
            (self.low[at], self.high[at], self.tail[at]) = (0, 0, 0);
            rest &= rest - 1;
        }
        self.writes &= !set;
    }

    /// Whether an entry contradicts itself, or one of an idle tag is not zero.
    pub fn contradicts(&self, settings: &Settings, outstanding: u32, phase: Option<u8>) -> bool {
        let above_depth = outstanding.checked_shr(u32::from(settings.depth)).unwrap_or(0);
        above_depth != 0
            || self.writes & !outstanding != 0
            || phase.is_some_and(|tag| self.moved_contradicts(tag))
            || self.columns_contradict(settings.capacity, outstanding, phase)
    }

    /// Of the tag whose phase is open.
    fn moved_contradicts(&self, tag: u8) -> bool {
        let entry = self.entry(tag);
        entry.moved % 4 != 0 || u64::from(entry.moved) >= u64::from(entry.count) * u64::from(SECTOR)
    }

    /// All else, over all tags and with no branch, so that a compiler can take several tags at a time: a word for each tag, which is
    /// zero where nothing contradicts.
    fn columns_contradict(&self, capacity: u32, outstanding: u32, phase: Option<u8>) -> bool {
        let open = phase.map_or(0, |tag| 1u32.checked_shl(u32::from(tag)).unwrap_or(0));
        let mut bad = 0;
        for at in 0..TAGS {
            let (first, count, moved) = (self.first[at], self.count[at], self.moved[at]);
            let (low, high, tail) = (self.low[at], self.high[at], self.tail[at]);
            let range = word(count.wrapping_sub(1) >= capacity) | word(first > capacity.wrapping_sub(count));
            let place = (low ^ first) & 0xFF_FFFF | high ^ first >> 24;
            let named = (tail ^ TAIL_OF[at]) & 0xF8 | (tail >> 16 ^ count) & 0xFFFF;
            let partly = word(moved != 0) & word(moved != count.wrapping_mul(SECTOR)) & word(open & BIT[at] == 0);
            let idle = first | count | moved | low | high | tail;
            let busy = word(outstanding & BIT[at] != 0);
            bad |= busy & (range | place | named | partly) | !busy & idle;
        }
        bad != 0
    }
}

/// All ones where it holds.
fn word(holds: bool) -> u32 {
    u32::from(holds).wrapping_neg()
}

/// Each tag's bit.
const BIT: [u32; TAGS] = {
    let mut words = [1; TAGS];
    let mut at = 1;
    while at < TAGS {
        words[at] = 2 * words[at - 1];
        at += 1;
    }
    words
};

/// Each tag as it stands in byte 12 of a command.
const TAIL_OF: [u32; TAGS] = {
    let mut words = [0; TAGS];
    let mut at = 1;
    while at < TAGS {
        words[at] = words[at - 1] + 8;
        at += 1;
    }
    words
};
