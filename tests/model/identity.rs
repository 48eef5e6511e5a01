//! The page of IDENTIFY DEVICE, word by word (docs/IDENTIFY.md).

use crate::pages::{seal, PAGE};

/// Serial number, firmware revision and model: spaces.
const NAMES: [std::ops::Range<usize>; 3] = [10..20, 23..27, 27..47];

/// The words that are the same of every device.
const FIXED: [(usize, u16); 14] = [
    (2, 0xC837),
    (47, 0x8000),
    (49, 0x0300),
    (50, 0x4000),
    (53, 0x0004),
    (76, 0x0502),
    (78, 0),
    (79, 0),
    (80, 0x0040),
    (83, 0x4400),
    (84, 0x4020),
    (86, 0x0400),
    (87, 0x4020),
    (88, 0x203F),
];

/// Puts a number into words, the lowest first.
fn put(words: &mut [u16], number: u64) {
    for (place, word) in words.iter_mut().enumerate() {
        *word = (number >> (16 * place)) as u16;
    }
}

/// The page of so many tags and sectors.
pub fn page(depth: u32, sectors: u64) -> [u8; PAGE] {
    let mut words = [0; PAGE / 2];
    for (index, value) in FIXED {
        words[index] = value;
    }
    for name in NAMES {
        words[name].fill(0x2020);
    }
    words[75] = (depth - 1) as u16;
    put(&mut words[60..62], sectors.min((1 << 28) - 1));
    put(&mut words[100..104], sectors);
    words[255] = 0xA5;
    let mut page = [0; PAGE];
    for (place, word) in page.chunks_exact_mut(2).zip(words) {
        place.copy_from_slice(&word.to_le_bytes());
    }
    seal(page)
}
