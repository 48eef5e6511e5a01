//! Host frames of a random file.

use super::Random;
use crate::device::State;
use crate::program::event;

const COMMAND: u8 = 0x80;
const SRST: u8 = 4;

/// A command with rubbish in its reserved places, one time in four.
fn command(random: &mut Random, code: u8) -> Vec<u8> {
    let mut frame = vec![0; 20];
    if random.percent(25) {
        frame = random.bytes(20);
    }
    frame[0] = event::REGISTER;
    frame[1] = frame[1] & 0x7F | COMMAND;
    frame[2] = code;
    frame
}

/// A queued command: mostly with a free tag and a range that fits.
pub fn queued(random: &mut Random, state: &State) -> Vec<u8> {
    let code = random.one_of(&[0x60, 0x61]);
    let mut frame = command(random, code);
    let (first, count) = range(random, state.capacity);
    let lba = first.to_le_bytes();
    frame[4..7].copy_from_slice(&lba[..3]);
    frame[8..11].copy_from_slice(&lba[3..6]);
    let count = count.to_le_bytes();
    frame[3] = count[0];
    frame[11] = count[1];
    frame[12] = frame[12] & 7 | tag(random, state) << 3;
    frame
}

fn tag(random: &mut Random, state: &State) -> u8 {
    let free: Vec<u32> = (0..state.depth).filter(|&tag| !state.is_outstanding(tag)).collect();
    if free.is_empty() || random.percent(2) {
        random.below(32) as u8
    } else {
        random.one_of(&free) as u8
    }
}

/// First sector and count field; now and then past the capacity.
fn range(random: &mut Random, capacity: u32) -> (u64, u16) {
    let some = 1 + random.below(capacity);
    let count = random.one_of(&[1, 2, 15, 16, 17, 32, 33, capacity, some]).min(capacity);
    let last = capacity - count;
    let inside = random.below(last + 1);
    let first = u64::from(random.one_of(&[0, last, inside, inside]));
    match random.below(80) {
        0 => (first, 0),
        1 => (u64::from(last) + 1, count as u16),
        2 => (first | 1 << (24 + random.below(24)), count as u16),
        3 => (0xFFFF_FFFF_FFFF, count as u16),
        4 => (first, count as u16 | 0x0100),
        _ => (first, count as u16),
    }
}

/// READ LOG EXT of a page, well-formed but for one time in six.
pub fn read_log(random: &mut Random, page: u8) -> Vec<u8> {
    let mut frame = command(random, 0x2F);
    frame[4] = page;
    frame[5] = 0;
    frame[9] = 0;
    frame[12] = 1;
    frame[13] = 0;
    if random.percent(40) {
        frame[3] |= 1;
    }
    if random.percent(16) {
        let place = random.one_of(&[4, 5, 9, 12, 13]);
        frame[place] ^= 1 << random.below(8);
    }
    frame
}

/// A command that the device does not know, DEVICE RESET and log page 0 among
/// them.
pub fn other(random: &mut Random) -> Vec<u8> {
    let any = random.byte();
    let code = random.one_of(&[0x08, 0x2F, 0xC8, 0xEC, 0xEF, 0x25, any]);
    command(random, code)
}

fn control(random: &mut Random, srst: bool) -> Vec<u8> {
    let mut frame = command(random, 0);
    frame[1] &= !COMMAND;
    frame[2] = random.one_of(&[0x00, 0x60, 0x61]);
    frame[15] = if srst { frame[15] | SRST } else { frame[15] & !SRST };
    frame
}

pub fn srst(random: &mut Random) -> Vec<u8> {
    control(random, true)
}

/// SRST 0: a release if a reset is held, otherwise nothing.
pub fn release(random: &mut Random) -> Vec<u8> {
    control(random, false)
}

pub fn bist(random: &mut Random) -> Vec<u8> {
    let mut frame = if random.percent(50) { random.bytes(12) } else { vec![0; 12] };
    frame[0] = event::BIST;
    frame
}
