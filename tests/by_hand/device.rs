//! The device: a host frame or a device event goes in; replies come out, or a refusal that changes nothing.

use crate::replies::{Replies, DATA_LIMIT};
use crate::state::{Record, Settings, State, SECTOR};

const CRC_ERROR_BIT: u8 = 0x80;
const CRC_ROW: usize = 0;
const COMRESET_ROW: usize = 9;

/// Why a call is turned down, by its number.
#[derive(Clone, Copy)]
pub enum Refusal {
    Contradiction = 1,
    MediumLength = 2,
    NoFrame = 4,
    NotNow = 5,
    TooMuchData = 6,
    NotOutstanding = 7,
    PhaseOpen = 8,
    AllMoved = 9,
    NoReadPhase = 10,
    NotFinished = 11,
    NoSuchError = 12,
    NoSuchRow = 13,
}

pub type Answer = Result<(), Refusal>;

pub struct Device {
    pub settings: Settings,
    pub state: State,
    /// Whether each call tests its state for contradictions.
    pub checked: bool,
}

impl Device {
    pub fn power_on(settings: Settings, checked: bool) -> Result<Device, Refusal> {
        match settings.in_bounds() {
            true => Ok(Device { settings, state: State::idle(), checked }),
            false => Err(Refusal::Contradiction),
        }
    }

    /// The length due of a host data frame's payload.
    pub fn data_due(&self) -> Option<usize> {
        let entry = self.state.table.entry(self.state.phase?);
        entry.write.then(|| DATA_LIMIT.min(entry.left() as usize))
    }

    pub fn test_state(&self) -> Answer {
        match self.checked && self.state.contradicts(&self.settings) {
            true => Err(Refusal::Contradiction),
            false => Ok(()),
        }
    }

    pub fn test_medium(&self, medium: &[u8]) -> Answer {
        match medium.len() == self.settings.medium_size() {
            true => Ok(()),
            false => Err(Refusal::MediumLength),
        }
    }

    pub fn open(&mut self, tag: u8, replies: &mut Replies) -> Answer {
        self.test_state()?;
        if !self.state.is_outstanding(tag) {
            return Err(Refusal::NotOutstanding);
        }
        if self.state.phase.is_some() {
            return Err(Refusal::PhaseOpen);
        }
        let entry = self.state.table.entry(tag);
        if entry.left() == 0 {
            return Err(Refusal::AllMoved);
        }
        replies.dma_setup(tag, entry.write, entry.whole());
        if entry.write {
            replies.activate();
        }
        self.state.phase = Some(tag);
        Ok(())
    }

    pub fn send(&mut self, medium: &[u8], replies: &mut Replies) -> Answer {
        self.test_state()?;
        self.test_medium(medium)?;
        let tag = self.state.phase.ok_or(Refusal::NoReadPhase)?;
        let entry = self.state.table.entry(tag);
        if entry.write {
            return Err(Refusal::NoReadPhase);
        }
        let from = (entry.first * SECTOR + entry.moved) as usize;
        let length = DATA_LIMIT.min(entry.left() as usize);
        replies.data(&medium[from..from + length]);
        self.state.table.move_on(tag, length);
        if length == entry.left() as usize {
            self.state.phase = None;
        }
        Ok(())
    }

    pub fn finish(&mut self, set: u32, replies: &mut Replies) -> Answer {
        self.test_state()?;
        if self.state.phase.is_some() {
            return Err(Refusal::PhaseOpen);
        }
        if set == 0 || set & !self.state.outstanding != 0 || !self.all_moved(set) {
            return Err(Refusal::NotFinished);
        }
        replies.finished(set);
        self.state.clear(set);
        Ok(())
    }

    fn all_moved(&self, set: u32) -> bool {
        let mut rest = set;
        while rest != 0 {
            if self.state.table.entry(rest.trailing_zeros() as u8).left() != 0 {
                return false;
            }
            rest &= rest - 1;
        }
        true
    }

    pub fn media_error(&mut self, tag: u8, error: u8, sector: u32, replies: &mut Replies) -> Answer {
        self.test_state()?;
        if !self.state.is_outstanding(tag) {
            return Err(Refusal::NotOutstanding);
        }
        let entry = self.state.table.entry(tag);
        if error == 0 || sector < entry.first || sector - entry.first >= entry.count {
            return Err(Refusal::NoSuchError);
        }
        let echo = entry.echo.at(sector);
        if error & CRC_ERROR_BIT != 0 {
            self.state.count(CRC_ROW);
        }
        replies.failed(error);
        self.state.halt(Record { tag, error, echo, ..Record::default() });
        Ok(())
    }

    pub fn link_event(&mut self, row: u8) -> Answer {
        self.test_state()?;
        let row = usize::from(row);
        if row == CRC_ROW || row == COMRESET_ROW || !self.settings.keeps(row) {
            return Err(Refusal::NoSuchRow);
        }
        self.state.count(row);
        Ok(())
    }

    pub fn comreset(&mut self, replies: &mut Replies) -> Answer {
        self.test_state()?;
        self.state.reset();
        self.state.held = false;
        self.state.count(COMRESET_ROW);
        replies.signature();
        Ok(())
    }
}
