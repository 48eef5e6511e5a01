//! Log pages 10h and 11h: reading and writing, and the table of rows.

use crate::fields::{lba, little_endian, part, whole, Field};
use crate::frames::{place, BAD_VALUE};

/// Refusal numbers of the page readers.
pub const NOT_512: u8 = 20;
pub const BAD_SUM: u8 = 21;
pub const BAD_WALK: u8 = 22;
pub const BAD_NUMBER: u8 = 23;

/// Every page is this long; its bytes sum to 0 modulo 256.
pub const PAGE: usize = 512;

/// Refusal 20.
fn check_length(bytes: &[u8]) -> Result<(), u8> {
    if bytes.len() == PAGE {
        Ok(())
    } else {
        Err(NOT_512)
    }
}

/// Refusal 21.
fn check_sum(bytes: &[u8]) -> Result<(), u8> {
    let sum: usize = bytes.iter().map(|&b| usize::from(b)).sum();
    if sum % 256 == 0 {
        Ok(())
    } else {
        Err(BAD_SUM)
    }
}

/// Sets byte 511, which is still 0, so that all bytes sum to 0 modulo 256.
pub fn seal(mut page: [u8; PAGE]) -> [u8; PAGE] {
    let sum: usize = page.iter().map(|&b| usize::from(b)).sum();
    page[PAGE - 1] = ((256 - sum % 256) % 256) as u8;
    page
}

// Page 10h.

/// The named fields of page 10h. NQ and the tag stand first and second.
static ERROR_FIELDS: [Field; 7] = [
    part("NQ", 0, 7, 1),
    part("tag", 0, 0, 5),
    whole("status", 2, 1),
    whole("error", 3, 1),
    lba(),
    whole("device", 7, 1),
    whole("count", 12, 2),
];
const NQ: usize = 0;
const TAG: usize = 1;

/// The values of page 10h: NQ, tag, status, error, LBA, device, count.
pub type ErrorPage = [u64; 7];

/// The names of these values, in their order.
pub fn error_names() -> impl Iterator<Item = &'static str> {
    ERROR_FIELDS.iter().map(|field| field.name)
}

/// Reads page 10h: refusals 20, 21; each field as it stands, the tag as 0
/// under NQ.
pub fn read_10h(bytes: &[u8]) -> Result<ErrorPage, u8> {
    check_length(bytes)?;
    check_sum(bytes)?;
    let mut values = [0; 7];
    for (value, field) in values.iter_mut().zip(&ERROR_FIELDS) {
        *value = field.take(bytes);
    }
    if values[NQ] == 1 {
        values[TAG] = 0;
    }
    Ok(values)
}

/// Writes page 10h: 25 if a value is too large or a tag stands under NQ; 26.
pub fn write_10h(values: &ErrorPage, buffer: &mut [u8]) -> Result<usize, u8> {
    let all_fit = ERROR_FIELDS.iter().zip(values).all(|(f, &v)| f.holds(v));
    let tag_under_nq = values[NQ] == 1 && values[TAG] != 0;
    if !all_fit || tag_under_nq {
        return Err(BAD_VALUE);
    }
    let mut page = [0; PAGE];
    for (field, &value) in ERROR_FIELDS.iter().zip(values) {
        field.put(value, &mut page);
    }
    place(&seal(page), buffer)
}

// Page 11h.

/// The identifier of each row, row 0 first.
pub const ROWS: [u16; 16] = [
    0x001, 0x002, 0x003, 0x004, 0x005, 0x006, 0x007, 0x008, 0x009, 0x00A, 0x00B, 0x00D, 0x00F,
    0x010, 0x012, 0x013,
];

/// The row of an identifier, if it has one.
pub fn row_of(identifier: u16) -> Option<usize> {
    ROWS.iter().position(|&id| id == identifier)
}

/// Counters stand from here ...
const FIRST: usize = 4;
/// ... and end here at the latest.
const LAST: usize = 508;

/// Row r is in the mask.
fn kept(mask: u16, row: usize) -> bool {
    mask >> row & 1 == 1
}

/// Writes page 11h: 25 if row 0 or row 9 is not in the mask; 26. For each kept
/// row 2000h + identifier, then the 4-byte value; the rest is 0.
pub fn write_11h(mask: u16, values: &[u32; 16], buffer: &mut [u8]) -> Result<usize, u8> {
    if !(kept(mask, 0) && kept(mask, 9)) {
        return Err(BAD_VALUE);
    }
    let entries: Vec<u8> = (0..16)
        .filter(|&row| kept(mask, row))
        .flat_map(|row| {
            let identifier = (0x2000 + ROWS[row]).to_le_bytes().to_vec();
            identifier.into_iter().chain(values[row].to_le_bytes().to_vec())
        })
        .collect();
    let mut page = [0; PAGE];
    page[FIRST..FIRST + entries.len()].copy_from_slice(&entries);
    place(&seal(page), buffer)
}

/// What the page says of a counter: its value, and whether that is the largest of its own width.
#[derive(Clone, Copy, Debug, PartialEq, Eq)]
pub struct Counted {
    pub value: u64,
    pub top: bool,
}

/// One counter met on the walk.
struct Entry {
    identifier: u16,
    counted: Counted,
}

impl Entry {
    /// Bit 15: a vendor's own, stepped over.
    fn vendor(&self) -> bool {
        self.identifier >> 15 == 1
    }

    /// The low 12 bits name the counter.
    fn number(&self) -> u16 {
        self.identifier & 0xFFF
    }

    /// Only a vendor's own identifier may have the number 0.
    fn lawful(&self) -> bool {
        self.vendor() || self.number() != 0
    }
}

/// Bits 14:12 of 1 to 4 mean 2, 4, 6, 8 value bytes; all else is no width.
fn value_length(identifier: u16) -> Option<usize> {
    match identifier >> 12 & 7 {
        1 => Some(2),
        2 => Some(4),
        3 => Some(6),
        4 => Some(8),
        _ => None,
    }
}

/// All entries of the area between bytes 4 and 508, or `None` at the first
/// width that is none, value that passes the end, or unlawful number. The walk
/// ends with the area or at identifier 0000h, whatever stands behind it.
fn walk(area: &[u8]) -> Option<Vec<Entry>> {
    let mut entries = Vec::new();
    let mut rest = area;
    while !rest.is_empty() {
        let identifier = little_endian(rest.get(..2)?) as u16;
        if identifier == 0 {
            break;
        }
        let end = 2 + value_length(identifier)?;
        let bytes = rest.get(2..end)?;
        let top = bytes.iter().all(|&byte| byte == 0xFF);
        let entry = Entry { identifier, counted: Counted { value: little_endian(bytes), top } };
        if !entry.lawful() {
            return None;
        }
        entries.push(entry);
        rest = &rest[end..];
    }
    Some(entries)
}

/// Reads counter `number` from page 11h: refusals 20, 23, 21, 22 in this
/// order; otherwise what the page says of it, or `None` if it is absent.
pub fn read_11h(bytes: &[u8], number: u16) -> Result<Option<Counted>, u8> {
    check_length(bytes)?;
    if !(1..=0xFFF).contains(&number) {
        return Err(BAD_NUMBER);
    }
    check_sum(bytes)?;
    let entries = walk(&bytes[FIRST..LAST]).ok_or(BAD_WALK)?;
    let asked = entries.iter().filter(|e| !e.vendor() && e.number() == number);
    let hits: Vec<Counted> = asked.map(|e| e.counted).collect();
    match hits.len() {
        0 => Ok(None),
        1 => Ok(Some(hits[0])),
        _ => Err(BAD_WALK),
    }
}
