//! What the device sends, each as a frame of the model's frame layer.

use super::state::{Echo, Entry, Record, State};
use crate::frames::{self, Frame};
use crate::{identity, pages};

/// Writes the frames behind one another, each in the room that the last one
/// left; bytes behind the last stay. Gives the length of all.
pub fn send(replies: &[Frame], reply: &mut [u8]) -> usize {
    let mut used = 0;
    for frame in replies {
        used += frames::write(frame, &mut reply[used..]).expect("room for every reply");
    }
    used
}

/// A frame of this kind that repeats a command's bytes, with more fields.
fn repeating(kind: u8, echo: &Echo, fields: &[(&str, u64)]) -> Frame<'static> {
    let lba = echo.lba();
    let device = u64::from(echo.device());
    let count = u64::from(echo.count());
    let repeated = [("lba", lba), ("device", device), ("count", count)];
    Frame::with(kind, &[], &[&repeated, fields].concat())
}

/// Device register, good: status 40h, error 0, I 0.
pub fn good(echo: &Echo) -> Frame<'static> {
    repeating(0x34, echo, &[("status", 0x40)])
}

/// Device register, bad: status 41h, I 1, the error named.
pub fn bad(echo: &Echo, error: u8) -> Frame<'static> {
    repeating(0x34, echo, &[("I", 1), ("status", 0x41), ("error", u64::from(error))])
}

/// The signature: 34h, I 0, status 40h, error 01h, bytes 4 and 12 01h.
pub fn signature() -> Frame<'static> {
    let fields = [("status", 0x40), ("error", 1), ("lba", 1), ("count", 1)];
    Frame::with(0x34, &[], &fields)
}

/// The sweep: A1h, I 0, status 40h, error 0, every bit of SActive.
pub fn sweep() -> Frame<'static> {
    Frame::with(0xA1, &[], &[("status", 0x40), ("sactive", 0xFFFF_FFFF)])
}

/// Finish: A1h, I 1, status 40h, error 0, SActive the set.
pub fn finished(set: u32) -> Frame<'static> {
    Frame::with(0xA1, &[], &[("I", 1), ("status", 0x40), ("sactive", u64::from(set))])
}

/// Media error: A1h, I 1, status 41h, that error, SActive 0.
pub fn media_error(error: u8) -> Frame<'static> {
    Frame::with(0xA1, &[], &[("I", 1), ("status", 0x41), ("error", u64::from(error))])
}

/// DMA Setup: A 0, I 0, D 1 to the host, offset 0, the whole byte count.
pub fn dma_setup(tag: u32, entry: &Entry) -> Frame<'static> {
    let to_host = u64::from(!entry.write);
    let fields = [("D", to_host), ("tag", u64::from(tag)), ("byte_count", entry.bytes())];
    Frame::with(0x41, &[], &fields)
}

pub fn activate() -> Frame<'static> {
    Frame::with(0x39, &[], &[])
}

pub fn data(payload: &[u8]) -> Frame<'_> {
    Frame::with(frames::DATA, payload, &[])
}

/// PIO Setup before a page: I 1, D 1, status 48h, ending status 40h, 512 bytes.
pub fn pio_setup(echo: &Echo) -> Frame<'static> {
    let fields =
        [("I", 1), ("D", 1), ("status", 0x48), ("ending_status", 0x40), ("pio_byte_count", 512)];
    repeating(0x5F, echo, &fields)
}

/// Page 10h in a data frame. A blank record: byte 0 is 80h, the rest 0.
pub fn error_page(record: &Record) -> Frame<'static> {
    let echo = &record.echo;
    let values = if record.set {
        let (nq, tag, error) = (record.nq.into(), record.tag.into(), record.error.into());
        [nq, tag, 0x41, error, echo.lba(), echo.device().into(), echo.count().into()]
    } else {
        [1, 0, 0, 0, 0, 0, 0]
    };
    let mut page = [0; pages::PAGE];
    pages::write_10h(&values, &mut page).expect("a record that page 10h can hold");
    data(&page).owned()
}

/// Page 11h in a data frame.
pub fn counter_page(state: &State) -> Frame<'static> {
    let mut page = [0; pages::PAGE];
    pages::write_11h(state.mask, &state.counters, &mut page).expect("rows 0 and 9 are kept");
    data(&page).owned()
}

/// The page of IDENTIFY DEVICE in a data frame.
pub fn identity_page(state: &State) -> Frame<'static> {
    data(&identity::page(state.depth, u64::from(state.capacity))).owned()
}
