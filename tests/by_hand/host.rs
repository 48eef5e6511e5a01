//! What the device does with a host frame.

use crate::device::{Answer, Device, Refusal};
use crate::echo::{sectors, Echo};
use crate::pages;
use crate::replies::{Replies, DATA_LIMIT};
use crate::state::{Record, SECTOR};
use crate::table::Entry;

const ABORTED: u8 = 0x04;
const NO_SUCH_SECTOR: u8 = 0x10;

impl Device {
    pub fn host_frame(&mut self, frame: &[u8], medium: &mut [u8], replies: &mut Replies) -> Answer {
        self.test_state()?;
        self.test_medium(medium)?;
        match frame {
            [0x27, ..] => match frame.try_into() {
                Ok(frame) => self.register(frame, replies),
                Err(_) => Err(Refusal::NoFrame),
            },
            [0x58, ..] if frame.len() == 12 => self.zero_counters(),
            [0x46, _, _, _, payload @ ..] => self.host_data(payload, medium, replies),
            _ => Err(Refusal::NoFrame),
        }
    }

    fn zero_counters(&mut self) -> Answer {
        if self.state.phase.is_some() {
            return Err(Refusal::NotNow);
        }
        self.state.counters.fill(0);
        Ok(())
    }

    fn host_data(&mut self, payload: &[u8], medium: &mut [u8], replies: &mut Replies) -> Answer {
        if payload.is_empty() || payload.len() > DATA_LIMIT || payload.len() % 4 != 0 {
            return Err(Refusal::NoFrame);
        }
        let tag = self.state.phase.ok_or(Refusal::NotNow)?;
        let entry = self.state.table.entry(tag);
        if !entry.write {
            return Err(Refusal::NotNow);
        }
        if payload.len() > entry.left() as usize {
            return Err(Refusal::TooMuchData);
        }
        let from = (entry.first * SECTOR + entry.moved) as usize;
        medium[from..from + payload.len()].copy_from_slice(payload);
        self.state.table.move_on(tag, payload.len());
        if payload.len() == entry.left() as usize {
            self.state.phase = None;
        } else {
            replies.activate();
        }
        Ok(())
    }

    fn register(&mut self, frame: &[u8; 20], replies: &mut Replies) -> Answer {
        if frame[1] & 0x80 == 0 {
            self.control(frame[15] & 0x04 != 0, replies);
            return Ok(());
        }
        if self.state.held || self.state.phase.is_some() {
            return Err(Refusal::NotNow);
        }
        match frame[2] {
            0x60 | 0x61 => self.queued(frame, replies),
            _ => self.other(frame, replies),
        }
        Ok(())
    }

    fn control(&mut self, reset: bool, replies: &mut Replies) {
        if reset {
            self.state.reset();
            self.state.held = true;
        } else if self.state.held {
            self.state.held = false;
            replies.signature();
        }
    }

    fn queued(&mut self, frame: &[u8; 20], replies: &mut Replies) {
        let echo = Echo::of(frame);
        let tag = echo.tag();
        let features = u16::from_le_bytes([frame[3], frame[11]]);
        let count = sectors(features);
        if self.state.halted {
            return replies.register(Err(ABORTED), &echo);
        }
        if tag >= self.settings.depth || self.state.is_outstanding(tag) {
            return self.bad(Record { tag, error: ABORTED, echo, ..Record::default() }, replies);
        }
        if echo.sector() + u64::from(count) > u64::from(self.settings.capacity) {
            return self.bad(Record { tag, error: NO_SUCH_SECTOR, echo, ..Record::default() }, replies);
        }
        self.state.outstanding |= 1 << tag;
        let first = echo.sector() as u32;
        self.state.table.put(tag, Entry { first, count, moved: 0, write: frame[2] == 0x61, features, echo });
        replies.register(Ok(()), &echo);
    }

    /// An answer that halts.
    fn bad(&mut self, record: Record, replies: &mut Replies) {
        replies.register(Err(record.error), &record.echo);
        self.state.halt(record);
    }

    fn other(&mut self, frame: &[u8; 20], replies: &mut Replies) {
        let echo = Echo::of(frame);
        let page = page_asked(frame);
        if self.state.halted && page != Some(Asked::Errors) {
            return replies.register(Err(ABORTED), &echo);
        }
        if self.state.outstanding != 0 {
            let record = Record { nq: true, error: ABORTED, echo, ..Record::default() };
            return self.bad(record, replies);
        }
        match page {
            Some(Asked::Errors) => self.read_errors(&echo, replies),
            Some(Asked::Counters) => self.read_counters(frame[3] & 1 == 1, &echo, replies),
            Some(Asked::Identity) => self.identify(&echo, replies),
            None => replies.register(Err(ABORTED), &echo),
        }
    }

    fn read_errors(&mut self, echo: &Echo, replies: &mut Replies) {
        if self.state.halted {
            replies.sweep();
            self.state.halted = false;
        }
        replies.pio_setup(echo);
        pages::errors(replies.page(), &self.state.record);
    }

    fn identify(&mut self, echo: &Echo, replies: &mut Replies) {
        replies.pio_setup(echo);
        pages::identity(replies.page(), &self.settings);
    }

    fn read_counters(&mut self, zeroing: bool, echo: &Echo, replies: &mut Replies) {
        replies.pio_setup(echo);
        pages::counters(replies.page(), &self.settings, &self.state.counters);
        if zeroing {
            self.state.counters.fill(0);
        }
    }
}

/// A page that a command asks for.
#[derive(Clone, Copy, PartialEq)]
enum Asked {
    Errors,
    Counters,
    Identity,
}

/// The page that a well-formed READ LOG EXT, or IDENTIFY DEVICE, asks for.
fn page_asked(frame: &[u8; 20]) -> Option<Asked> {
    if frame[2] == 0xEC {
        return Some(Asked::Identity);
    }
    let page = match frame[4] {
        0x10 => Asked::Errors,
        0x11 => Asked::Counters,
        _ => return None,
    };
    let well_formed = frame[2] == 0x2F && (frame[5], frame[9]) == (0, 0) && (frame[12], frame[13]) == (1, 0);
    well_formed.then_some(page)
}
