//! What the device knows between two calls, and when that contradicts itself.

use crate::echo::Echo;
use crate::table::Table;

pub const TAGS: usize = 32;
pub const ROWS: usize = 16;
pub const SECTOR: u32 = 512;

/// Rows 0 (001h) and 9 (00Ah) are always kept.
const ALWAYS_KEPT: u16 = 1 << 0 | 1 << 9;

#[derive(Clone, Copy)]
pub struct Settings {
    pub depth: u8,
    /// In sectors.
    pub capacity: u32,
    /// Bit r: row r is kept.
    pub mask: u16,
}

impl Settings {
    pub fn in_bounds(&self) -> bool {
        (1..=TAGS as u8).contains(&self.depth)
            && (1..=65_536).contains(&self.capacity)
            && self.mask & ALWAYS_KEPT == ALWAYS_KEPT
    }

    pub fn keeps(&self, row: usize) -> bool {
        row < ROWS && self.mask >> row & 1 == 1
    }

    pub fn medium_size(&self) -> usize {
        (self.capacity * SECTOR) as usize
    }
}

/// The last error that halted the device; all zeros while it is blank.
#[derive(Clone, Copy, Default)]
pub struct Record {
    pub set: bool,
    pub nq: bool,
    pub tag: u8,
    pub error: u8,
    pub echo: Echo,
}

impl Record {
    fn contradicts(&self) -> bool {
        let blank = !self.nq && self.tag == 0 && self.error == 0 && self.echo == Echo::default();
        self.tag > 31 || self.nq && self.tag != 0 || !self.set && !blank
    }
}

pub struct State {
    /// Bit t: tag t is outstanding.
    pub outstanding: u32,
    /// The tag whose data phase is open.
    pub phase: Option<u8>,
    pub halted: bool,
    pub held: bool,
    pub record: Record,
    pub counters: [u32; ROWS],
    pub table: Table,
}

impl State {
    pub fn idle() -> State {
        State {
            outstanding: 0,
            phase: None,
            halted: false,
            held: false,
            record: Record::default(),
            counters: [0; ROWS],
            table: Table::empty(),
        }
    }

    pub fn is_outstanding(&self, tag: u8) -> bool {
        tag < TAGS as u8 && self.outstanding >> tag & 1 == 1
    }

    /// The test of refusal 1.
    pub fn contradicts(&self, settings: &Settings) -> bool {
        !settings.in_bounds()
            || self.standing_contradicts()
            || self.record.contradicts()
            || self.counters_contradict(settings.mask)
            || self.table.contradicts(settings, self.outstanding, self.phase)
    }

    /// An unkept row is not zero; without a branch, as in the table.
    fn counters_contradict(&self, mask: u16) -> bool {
        let mut bad = 0;
        for (row, &value) in self.counters.iter().enumerate() {
            bad |= if mask >> row & 1 == 1 { 0 } else { value };
        }
        bad != 0
    }

    fn standing_contradicts(&self) -> bool {
        (self.halted || self.held) && self.outstanding != 0
            || self.halted && self.held
            || self.held && self.record.set
            || self.phase.is_some_and(|tag| !self.is_outstanding(tag))
    }

    /// Gives up the tags of a set.
    pub fn clear(&mut self, set: u32) {
        self.outstanding &= !set;
        self.table.clear(set);
    }

    /// Everything outstanding is dropped, and the open phase closes.
    pub fn drop_all(&mut self) {
        self.clear(self.outstanding);
        self.phase = None;
    }

    pub fn halt(&mut self, record: Record) {
        self.drop_all();
        self.halted = true;
        self.record = Record { set: true, ..record };
    }

    /// What a reset takes with it: all but the counters.
    pub fn reset(&mut self) {
        self.drop_all();
        self.halted = false;
        self.record = Record::default();
    }

    /// One more, unless the counter is at its top.
    pub fn count(&mut self, row: usize) {
        self.counters[row] = self.counters[row].saturating_add(1);
    }
}

#[cfg(test)]
mod tests;
