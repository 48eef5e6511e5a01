//! The device with all that is lent to it: medium, reply buffer, host data.

use super::event::{Event, Settings};
use crate::device::state::{REPLY_ROOM, SECTOR};
use crate::device::{events, host, Answer, State};
use crate::frames;

/// Settings of the event program are narrower than the device's own.
const TOP_CAPACITY: u32 = 64;

/// Payload of a data event outside a write phase.
const STRAY_PAYLOAD: usize = 4;

const DATA_HEADER: usize = 4;

pub struct Machine {
    pub state: State,
    medium: Vec<u8>,
    reply: Vec<u8>,
    replied: usize,
    data: Vec<u8>,
}

impl Machine {
    /// Power-on over a medium of zeros; `None` if the settings are refused.
    pub fn power_on(settings: &Settings) -> Option<Machine> {
        if settings.capacity > TOP_CAPACITY {
            return None;
        }
        let answer = events::power_on(settings.depth.into(), settings.capacity, settings.mask);
        if answer.refusal != 0 {
            return None;
        }
        Some(Machine {
            state: answer.state,
            medium: vec![0; SECTOR * settings.capacity as usize],
            reply: vec![0; REPLY_ROOM],
            replied: 0,
            data: vec![0; REPLY_ROOM],
        })
    }

    /// One event behind the settings; gives the refusal's number, 0 if taken.
    pub fn take(&mut self, event: &Event) -> u8 {
        let answer = self.answer(event);
        self.state = answer.state;
        self.replied = answer.length;
        answer.refusal
    }

    fn answer(&mut self, event: &Event) -> Answer {
        let (state, medium, reply) = (&self.state, &mut self.medium[..], &mut self.reply[..]);
        match event {
            Event::Open(tag) => events::open(state, *tag, reply),
            Event::Send => events::send(state, medium, reply),
            Event::Finish(set) => events::finish(state, *set, reply),
            Event::MediaError { tag, error, sector } => {
                events::media_error(state, *tag, *error, *sector, reply)
            }
            Event::Link(row) => events::link_event(state, *row),
            Event::Comreset => events::comreset(state, reply),
            Event::Data(byte) => {
                let frame = data_frame(&mut self.data, state, *byte);
                host::host_frame(state, frame, medium, reply)
            }
            Event::Register(frame) => host::host_frame(state, frame, medium, reply),
            Event::Bist(frame) => host::host_frame(state, frame, medium, reply),
            Event::Settings(_) => unreachable!("settings come once, and first"),
        }
    }

    /// The frames that the last event was answered with.
    pub fn replies(&self) -> impl Iterator<Item = &[u8]> {
        frames::cut(&self.reply[..self.replied])
    }
}

/// Host data of the length due; a few bytes where none is due.
fn data_frame<'a>(buffer: &'a mut [u8], state: &State, byte: u8) -> &'a [u8] {
    let writing = state.open_entry().filter(|entry| entry.write);
    let payload = writing.map_or(STRAY_PAYLOAD, |entry| entry.due());
    let frame = &mut buffer[..DATA_HEADER + payload];
    frame[..DATA_HEADER].copy_from_slice(&[frames::DATA, 0, 0, 0]);
    frame[DATA_HEADER..].fill(byte);
    frame
}
