//! A command: a 27h frame with C set.

use super::state::Echo;
use crate::frames::{self, Frame};

const READ_QUEUED: u8 = 0x60;
const WRITE_QUEUED: u8 = 0x61;
const READ_LOG_EXT: u8 = 0x2F;
const IDENTIFY_DEVICE: u8 = 0xEC;

pub const ERROR_PAGE: u8 = 0x10;
pub const COUNTER_PAGE: u8 = 0x11;

/// The parts of a command that a rule looks at, and the bytes it repeats.
pub struct Command {
    code: u8,
    pub features: u8,
    pub features_high: u8,
    pub echo: Echo,
}

impl Command {
    pub fn of(frame: &Frame) -> Command {
        Command {
            code: frame.get("command") as u8,
            features: frame.get("features") as u8,
            features_high: frame.get("features_high") as u8,
            echo: Echo::of(frame),
        }
    }

    pub fn is_queued(&self) -> bool {
        self.code == READ_QUEUED || self.code == WRITE_QUEUED
    }

    pub fn is_write(&self) -> bool {
        self.code == WRITE_QUEUED
    }

    /// IDENTIFY DEVICE, whatever its other bytes.
    pub fn is_identify(&self) -> bool {
        self.code == IDENTIFY_DEVICE
    }

    /// A queued command's sectors: 0 = 65,536.
    pub fn sectors(&self) -> u32 {
        frames::queued_sectors(self.features, self.features_high)
    }

    /// The page that a well-formed READ LOG EXT asks for: byte 4 is 10h or
    /// 11h, bytes 5 and 9 are 0, byte 12 is 1 and 13 is 0. No other byte is
    /// looked at.
    pub fn log_page(&self) -> Option<u8> {
        let [byte_4, byte_5, _, _, _, byte_9, _, byte_12, byte_13] = self.echo.0;
        let offered = byte_4 == ERROR_PAGE || byte_4 == COUNTER_PAGE;
        let one_page = (byte_5, byte_9, byte_12, byte_13) == (0, 0, 1, 0);
        Some(byte_4).filter(|_| self.code == READ_LOG_EXT && offered && one_page)
    }

    /// Features bit 0 zeroes the counters after page 11h is made.
    pub fn asks_zeroing(&self) -> bool {
        self.features & 1 == 1
    }
}
