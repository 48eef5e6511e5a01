//! The three mixes, and the steady queue.

use super::{frames, Made, Maker, CAPACITY, DEPTH};
use crate::input::kind;

impl Maker {
    /// A new command for each idle tag of the first `depth`.
    fn fill(&mut self, depth: u8, sectors: impl Fn(&mut Maker) -> u32) -> Made {
        for tag in (0..depth).filter(|tag| self.outstanding() >> tag & 1 == 0).collect::<Vec<u8>>() {
            let count = sectors(self);
            let first = self.below(CAPACITY - count + 1);
            let write = self.once_in(2);
            self.event(&frames::queued(write, tag, first, count))?;
        }
        Ok(())
    }

    /// A phase for a tag, and all of its data.
    pub(super) fn move_all(&mut self, tag: u8) -> Made {
        self.event(&[kind::OPEN, tag])?;
        while self.bench.device.state.phase.is_some() {
            if self.bench.device.data_due().is_some() {
                let byte = self.below(256) as u8;
                self.event(&[kind::HOST_DATA, byte])?;
            } else {
                self.event(&[kind::SEND])?;
            }
        }
        Ok(())
    }

    /// One of the outstanding tags, if there is any.
    fn any_tag(&mut self) -> Option<u8> {
        let tags: Vec<u8> = (0..DEPTH).filter(|tag| self.outstanding() >> tag & 1 == 1).collect();
        let count = u32::try_from(tags.len()).ok().filter(|&count| count > 0)?;
        Some(tags[self.below(count) as usize])
    }

    /// One to four commands are moved and then finished at once; their tags are used again.
    pub(super) fn mixed(&mut self) -> Made {
        self.fill(DEPTH, |_| 16)?;
        let mut moved = 0;
        for _ in 0..1 + self.below(4) {
            match self.any_tag() {
                Some(tag) if moved >> tag & 1 == 0 => {
                    self.move_all(tag)?;
                    moved |= 1 << tag;
                }
                _ => {}
            }
        }
        self.event(&frames::finish(moved))
    }

    pub(super) fn small(&mut self) -> Made {
        self.fill(DEPTH, |maker| if maker.once_in(8) { 2 + maker.below(3) } else { 1 })?;
        if self.once_in(8) {
            let row = 1 + self.below(8) as u8;
            self.event(&[kind::LINK_EVENT, row])?;
        }
        if let Some(tag) = self.any_tag() {
            self.move_all(tag)?;
            self.event(&frames::finish(1 << tag))?;
        }
        Ok(())
    }

    /// Some commands, an event that is refused now and then, an error, and what ends its halt.
    pub(super) fn errors(&mut self) -> Made {
        let depth = 1 + self.below(8) as u8;
        self.fill(depth, |maker| 1 + maker.below(16))?;
        if self.once_in(2) {
            self.refused()?;
        }
        if let (true, Some(tag)) = (self.once_in(2), self.any_tag()) {
            self.move_all(tag)?;
        }
        self.failing()?;
        self.recovering()
    }

    fn refused(&mut self) -> Made {
        match self.below(5) {
            0 => self.event(&[kind::OPEN, 31]),
            1 => self.event(&[kind::SEND]),
            2 => self.event(&[kind::HOST_DATA, 0]),
            3 => self.event(&frames::finish(0)),
            _ => self.event(&[kind::LINK_EVENT, 0]),
        }
    }

    fn failing(&mut self) -> Made {
        let Some(tag) = self.any_tag() else {
            return Ok(());
        };
        match self.below(6) {
            0 => self.event(&frames::queued(false, tag, 0, 1)),
            1 => self.event(&frames::queued(false, 31, CAPACITY, 1)),
            2 => self.event(&frames::command(0xEC)),
            _ => {
                let error = if self.once_in(4) { 0x84 } else { 0x40 };
                let first = self.bench.device.state.table.entry(tag).first;
                self.event(&frames::media_error(tag, error, first))
            }
        }
    }

    fn recovering(&mut self) -> Made {
        match self.below(8) {
            0 => self.event(&[kind::COMRESET]),
            1 => {
                self.event(&frames::control(true))?;
                self.event(&frames::control(false))
            }
            2 => {
                self.event(&frames::read_log(0x11, false))?;
                self.event(&frames::read_log(0x10, false))
            }
            3 => {
                self.event(&frames::read_log(0x10, false))?;
                let zeroing = self.once_in(2);
                self.event(&frames::read_log(0x11, zeroing))
            }
            _ => self.event(&frames::read_log(0x10, false)),
        }
    }

    /// So many tags outstanding; each in turn is moved, finished, and used again. Reads and writes take turns, however many tags
    /// there are.
    pub(super) fn steady(&mut self, tags: u8) -> Made {
        let mut write = false;
        for tag in 0..tags {
            self.event(&frames::queued(write, tag, 0, 1))?;
            write = !write;
        }
        for tag in (0..tags).cycle() {
            self.move_all(tag)?;
            self.event(&frames::finish(1 << tag))?;
            self.event(&frames::queued(write, tag, 0, 1))?;
            write = !write;
        }
        Ok(())
    }
}
