//! The events of a file, as their bytes.

use crate::input::kind;

pub fn settings(depth: u8, capacity: u32, rows: u16) -> [u8; 8] {
    let [a, b, c, d] = capacity.to_le_bytes();
    let [low, high] = rows.to_le_bytes();
    [kind::SETTINGS, depth, a, b, c, d, low, high]
}

/// A command that names nothing but itself.
pub fn command(code: u8) -> [u8; 20] {
    let mut frame = [0; 20];
    frame[0] = kind::REGISTER;
    frame[1] = 0x80;
    frame[2] = code;
    frame[7] = 0x40;
    frame
}

pub fn queued(write: bool, tag: u8, first: u32, count: u32) -> [u8; 20] {
    let mut frame = command(if write { 0x61 } else { 0x60 });
    let [low, high, ..] = count.to_le_bytes();
    (frame[3], frame[11]) = (low, high);
    frame[4..7].copy_from_slice(&first.to_le_bytes()[..3]);
    frame[12] = tag << 3;
    frame
}

pub fn read_log(page: u8, zeroing: bool) -> [u8; 20] {
    let mut frame = command(0x2F);
    frame[3] = u8::from(zeroing);
    frame[4] = page;
    frame[12] = 1;
    frame
}

pub fn control(reset: bool) -> [u8; 20] {
    let mut frame = [0; 20];
    frame[0] = kind::REGISTER;
    frame[15] = if reset { 0x04 } else { 0 };
    frame
}

pub fn finish(set: u32) -> [u8; 5] {
    let [a, b, c, d] = set.to_le_bytes();
    [kind::FINISH, a, b, c, d]
}

pub fn media_error(tag: u8, error: u8, sector: u32) -> [u8; 7] {
    let [a, b, c, d] = sector.to_le_bytes();
    [kind::MEDIA_ERROR, tag, error, a, b, c, d]
}
