//! Frames: one table of fields for each kind. Reading, writing and cutting
//! follow the tables and know nothing else about a kind.

use crate::fields::{lba, part, set_bits_status, whole, Field};
use std::borrow::Cow;

/// Refusal numbers of this layer.
pub const BAD_FRAME: u8 = 24;
pub const BAD_VALUE: u8 = 25;
pub const NO_ROOM: u8 = 26;

/// The one kind whose length is not fixed.
pub const DATA: u8 = 0x46;

/// A data frame: 4 bytes of header, then the payload.
const DATA_HEADER: usize = 4;

/// What a kind looks like. `length` of 46h is that of its header.
pub struct Layout {
    pub kind: u8,
    pub length: usize,
    pub fields: &'static [Field],
}

/// The eight kinds; all that is not named is written 0 and dropped on reading.
pub static LAYOUTS: [Layout; 8] = [
    Layout {
        kind: 0x27,
        length: 20,
        fields: &[
            part("C", 1, 7, 1),
            whole("command", 2, 1),
            whole("features", 3, 1),
            lba(),
            whole("device", 7, 1),
            whole("features_high", 11, 1),
            whole("count", 12, 2),
            whole("control", 15, 1),
        ],
    },
    Layout {
        kind: 0x34,
        length: 20,
        fields: &[
            part("I", 1, 6, 1),
            whole("status", 2, 1),
            whole("error", 3, 1),
            lba(),
            whole("device", 7, 1),
            whole("count", 12, 2),
        ],
    },
    Layout {
        kind: 0xA1,
        length: 8,
        fields: &[
            part("I", 1, 6, 1),
            set_bits_status(),
            whole("error", 3, 1),
            whole("sactive", 4, 4),
        ],
    },
    Layout {
        kind: 0x41,
        length: 28,
        fields: &[
            part("A", 1, 7, 1),
            part("I", 1, 6, 1),
            part("D", 1, 5, 1),
            whole("tag", 4, 4),
            whole("offset", 16, 4),
            whole("byte_count", 20, 4),
        ],
    },
    Layout { kind: 0x39, length: 4, fields: &[] },
    Layout { kind: DATA, length: DATA_HEADER, fields: &[] },
    Layout { kind: 0x58, length: 12, fields: &[] },
    Layout {
        kind: 0x5F,
        length: 20,
        fields: &[
            part("I", 1, 6, 1),
            part("D", 1, 5, 1),
            whole("status", 2, 1),
            whole("error", 3, 1),
            lba(),
            whole("device", 7, 1),
            whole("count", 12, 2),
            whole("ending_status", 15, 1),
            whole("pio_byte_count", 16, 2),
        ],
    },
];

/// The layout of a kind, if the kind is known.
pub fn layout(kind: u8) -> Option<&'static Layout> {
    LAYOUTS.iter().find(|l| l.kind == kind)
}

/// A frame taken apart; its payload may stand where it was found.
#[derive(Clone, Debug, PartialEq)]
pub struct Frame<'a> {
    pub kind: u8,
    values: [u64; MOST_FIELDS],
    pub payload: Cow<'a, [u8]>,
}

/// No kind has more fields.
const MOST_FIELDS: usize = 9;

impl<'a> Frame<'a> {
    /// A frame of a known layout; `value_of` gives each field.
    fn laid(
        layout: &Layout,
        payload: Cow<'a, [u8]>,
        value_of: impl Fn(&Field) -> u64,
    ) -> Frame<'a> {
        let mut values = [0; MOST_FIELDS];
        for (value, field) in values.iter_mut().zip(layout.fields) {
            *value = value_of(field);
        }
        Frame { kind: layout.kind, values, payload }
    }

    /// A frame of a known kind; `value_of` gives each field by its name.
    pub fn new(kind: u8, payload: &'a [u8], value_of: impl Fn(&str) -> u64) -> Frame<'a> {
        let layout = layout(kind).expect("a known kind");
        Frame::laid(layout, Cow::Borrowed(payload), |field| value_of(field.name))
    }

    /// The values, in the order of the kind's fields.
    pub fn values(&self) -> &[u64] {
        &self.values[..layout(self.kind).expect("a known kind").fields.len()]
    }

    /// The same frame, with its payload for its own.
    pub fn owned(self) -> Frame<'static> {
        Frame { payload: Cow::Owned(self.payload.into_owned()), ..self }
    }

    /// A frame of a known kind with the fields named, the others 0.
    pub fn with(kind: u8, payload: &'a [u8], fields: &[(&str, u64)]) -> Frame<'a> {
        let known = layout(kind).map_or(&[][..], |l| l.fields);
        assert!(fields.iter().all(|f| known.iter().any(|k| k.name == f.0)));
        let value_of = |name: &str| fields.iter().find(|f| f.0 == name).map_or(0, |f| f.1);
        Frame::new(kind, payload, value_of)
    }

    /// The value of a field that this kind has.
    pub fn get(&self, name: &str) -> u64 {
        let fields = layout(self.kind).expect("a known kind").fields;
        let place = fields.iter().position(|f| f.name == name).expect("a field of this kind");
        self.values[place]
    }
}

/// 46h: 8 to 8,196 bytes in steps of 4. Every other kind: its own length.
fn length_fits(layout: &Layout, length: usize) -> bool {
    match layout.kind {
        DATA => (8..=8196).contains(&length) && length % 4 == 0,
        _ => length == layout.length,
    }
}

/// Reads one frame; refusal 24 by kind and length alone.
pub fn read(bytes: &[u8]) -> Result<Frame<'_>, u8> {
    let kind = *bytes.first().ok_or(BAD_FRAME)?;
    let layout = layout(kind).ok_or(BAD_FRAME)?;
    if !length_fits(layout, bytes.len()) {
        return Err(BAD_FRAME);
    }
    let payload = Cow::Borrowed(&bytes[layout.length..]);
    Ok(Frame::laid(layout, payload, |field| field.take(bytes)))
}

/// Refusal 25 is not due: each value fits, and a payload is 4 to 8,192 bytes
/// in steps of 4.
fn may_be_written(layout: &Layout, frame: &Frame) -> bool {
    let values_fit = layout.fields.iter().zip(&frame.values).all(|(f, &v)| f.holds(v));
    let payload_fits =
        layout.kind != DATA || length_fits(layout, DATA_HEADER + frame.payload.len());
    values_fit && payload_fits
}

/// Writes one frame at the start of the buffer and gives its length.
/// Refusal 25 comes before 26; neither changes a byte.
pub fn write(frame: &Frame, buffer: &mut [u8]) -> Result<usize, u8> {
    let layout = layout(frame.kind).expect("a known kind");
    if !may_be_written(layout, frame) {
        return Err(BAD_VALUE);
    }
    let length = layout.length + frame.payload.len();
    let (header, payload) = buffer.get_mut(..length).ok_or(NO_ROOM)?.split_at_mut(layout.length);
    header.fill(0);
    header[0] = frame.kind;
    for (field, &value) in layout.fields.iter().zip(&frame.values) {
        field.put(value, header);
    }
    payload.copy_from_slice(&frame.payload);
    Ok(length)
}

/// Copies a finished image to the start of the buffer; refusal 26 if it is
/// longer than the buffer. Bytes behind it stay.
pub fn place(image: &[u8], buffer: &mut [u8]) -> Result<usize, u8> {
    buffer.get_mut(..image.len()).ok_or(NO_ROOM)?.copy_from_slice(image);
    Ok(image.len())
}

/// The length of the first piece: the kind fixes it; 46h, an unknown kind and
/// a frame that is cut short take all that is left.
fn piece_length(rest: &[u8]) -> usize {
    match layout(rest[0]) {
        Some(l) if l.kind != DATA => l.length.min(rest.len()),
        _ => rest.len(),
    }
}

/// Several frames behind one another, cut apart.
pub fn cut(bytes: &[u8]) -> impl Iterator<Item = &[u8]> {
    let mut rest = bytes;
    std::iter::from_fn(move || {
        if rest.is_empty() {
            return None;
        }
        let (piece, left) = rest.split_at(piece_length(rest));
        rest = left;
        Some(piece)
    })
}

/// A queued command's tag: bits 7:3 of byte 12, the low byte of the count.
pub fn queued_tag(count: u16) -> u8 {
    (count >> 3 & 31) as u8
}

/// A queued command's sectors: features and features high, 0 = 65,536.
pub fn queued_sectors(features: u8, features_high: u8) -> u32 {
    match u16::from_le_bytes([features, features_high]) {
        0 => 65_536,
        count => u32::from(count),
    }
}
