//! Log pages 10h and 11h.

use crate::state::{Record, Settings, ROWS};

pub type Page = [u8; 512];

/// The identifiers of the rows.
const IDENTIFIERS: [u16; ROWS] =
    [0x001, 0x002, 0x003, 0x004, 0x005, 0x006, 0x007, 0x008, 0x009, 0x00A, 0x00B, 0x00D, 0x00F, 0x010, 0x012, 0x013];

/// Identifier bits that say that the value has four bytes.
const FOUR_BYTES: u16 = 0x2000;

pub fn errors(page: &mut Page, record: &Record) {
    page.fill(0);
    if record.set {
        page[0] = if record.nq { 0x80 } else { record.tag };
        page[2] = 0x41;
        page[3] = record.error;
        record.echo.lay(page);
    } else {
        page[0] = 0x80;
    }
    sum(page, 14);
}

pub fn counters(page: &mut Page, settings: &Settings, values: &[u32; ROWS]) {
    page.fill(0);
    let mut at = 4;
    for row in (0..ROWS).filter(|&row| settings.keeps(row)) {
        page[at..at + 2].copy_from_slice(&(FOUR_BYTES | IDENTIFIERS[row]).to_le_bytes());
        page[at + 2..at + 6].copy_from_slice(&values[row].to_le_bytes());
        at += 6;
    }
    sum(page, at);
}

/// What IDENTIFY DEVICE tells of every device: a word, and where it stands.
const FIXED: [(usize, u16); 13] = [
    (2, 0xC837),
    (47, 0x8000),
    (49, 0x0300),
    (50, 0x4000),
    (53, 0x0004),
    (76, 0x0502),
    (80, 0x0040),
    (83, 0x4400),
    (84, 0x4020),
    (86, 0x0400),
    (87, 0x4020),
    (88, 0x203F),
    (255, 0x00A5),
];

pub fn identity(page: &mut Page, settings: &Settings) {
    page.fill(0);
    page[20..40].fill(b' ');
    page[46..94].fill(b' ');
    for (word, value) in FIXED {
        page[2 * word..2 * word + 2].copy_from_slice(&value.to_le_bytes());
    }
    page[150] = settings.depth - 1;
    page[120..124].copy_from_slice(&settings.capacity.to_le_bytes());
    page[200..204].copy_from_slice(&settings.capacity.to_le_bytes());
    sum(page, 511);
}

/// The last byte makes all bytes sum to 0; behind `end` the page is blank.
fn sum(page: &mut Page, end: usize) {
    let sum = page[..end].iter().fold(0u8, |sum, &byte| sum.wrapping_add(byte));
    page[511] = sum.wrapping_neg();
}
