//! One event to its call of the device.

use crate::device::{Device, Refusal};
use crate::input::kind;
use crate::replies::{Replies, BUFFER, DATA};
use crate::state::Settings;

/// So many sectors a settings record may ask for.
const CAPACITY_LIMIT: u32 = 64;

/// A device, and what it is lent at each call.
pub struct Bench {
    pub device: Device,
    medium: Vec<u8>,
    pub replies: Replies,
    frame: [u8; BUFFER],
}

impl Bench {
    pub fn start(record: &[u8], checked: bool) -> Result<Bench, Refusal> {
        let settings = Settings {
            depth: record[1],
            capacity: number(record, 2),
            mask: u16::from_le_bytes([record[6], record[7]]),
        };
        if settings.capacity > CAPACITY_LIMIT {
            return Err(Refusal::Contradiction);
        }
        let device = Device::power_on(settings, checked)?;
        let medium = vec![0; settings.medium_size()];
        let mut frame = [0; BUFFER];
        frame[..4].copy_from_slice(&DATA);
        Ok(Bench { device, medium, replies: Replies::new(), frame })
    }

    /// The number of the refusal, 0 if the event is taken.
    pub fn play(&mut self, event: &[u8]) -> u8 {
        self.replies.clear();
        self.call(event).map_or_else(|refusal| refusal as u8, |()| 0)
    }

    fn call(&mut self, event: &[u8]) -> Result<(), Refusal> {
        let Bench { device, medium, replies, .. } = self;
        match event[0] {
            kind::OPEN => device.open(event[1], replies),
            kind::SEND => device.send(medium, replies),
            kind::FINISH => device.finish(number(event, 1), replies),
            kind::MEDIA_ERROR => device.media_error(event[1], event[2], number(event, 3), replies),
            kind::LINK_EVENT => device.link_event(event[1]),
            kind::COMRESET => device.comreset(replies),
            kind::HOST_DATA => self.host_data(event[1]),
            _ => device.host_frame(event, medium, replies),
        }
    }

    /// A frame of the length due; of four bytes where none is.
    fn host_data(&mut self, byte: u8) -> Result<(), Refusal> {
        let end = 4 + self.device.data_due().unwrap_or(4);
        self.frame[4..end].fill(byte);
        self.device.host_frame(&self.frame[..end], &mut self.medium, &mut self.replies)
    }
}

/// Four bytes, the lowest first.
fn number(event: &[u8], at: usize) -> u32 {
    u32::from_le_bytes([event[at], event[at + 1], event[at + 2], event[at + 3]])
}
