//! Frames and pages, read from bytes that a line gives and written to a buffer of a length that it gives.

use super::bench::BEFORE;
use super::command::{text_name, Reading, Writing};
use super::{shown, REPLY};
use crate::frames::{self, Frame};
use crate::pages;

pub fn read(reading: &Reading) -> String {
    match reading {
        Reading::Frame(bytes) => frames::read(bytes).map_or_else(shown::refused, |f| frame(&f)),
        Reading::Pieces(bytes) => pieces(bytes),
        Reading::ErrorPage(bytes) => pages::read_10h(bytes)
            .map_or_else(shown::refused, |values| named(pages::error_names(), &values)),
        Reading::Counter(number, bytes) => shown::page_counter(pages::read_11h(bytes, *number)),
        Reading::Row(number) => {
            pages::row_of(*number).map_or("none".to_string(), |row| row.to_string())
        }
        Reading::Queued { features, features_high, count } => format!(
            "tag={:x} sectors={:x}",
            frames::queued_tag(*count),
            frames::queued_sectors(*features, *features_high)
        ),
    }
}

/// The kind, then the fields or the payload's length.
fn frame(frame: &Frame) -> String {
    let kind = format!("{:02X}", frame.kind);
    let layout = frames::layout(frame.kind).expect("a known kind");
    let fields = named(layout.fields.iter().map(|field| field.name), frame.values());
    match frame.kind {
        frames::DATA => format!("{} payload={}", kind, frame.payload.len()),
        _ if fields.is_empty() => kind,
        _ => format!("{kind} {fields}"),
    }
}

/// `name=value`, with blanks between them.
fn named(names: impl Iterator<Item = &'static str>, values: &[u64]) -> String {
    let words = names.zip(values).map(|(name, value)| format!("{}={value:x}", text_name(name)));
    words.collect::<Vec<_>>().join(" ")
}

fn pieces(bytes: &[u8]) -> String {
    let words: Vec<String> = frames::cut(bytes).map(shown::kind_and_length).collect();
    match words.is_empty() {
        true => "none".to_string(),
        false => words.join(" "),
    }
}

/// The refusal, the length, then what was written; `tail` if a byte behind it was changed.
pub fn write(room: usize, what: &Writing) -> String {
    let mut buffer = vec![BEFORE; REPLY];
    let written = write_to(&mut buffer[..room], what);
    let length = *written.as_ref().unwrap_or(&0);
    let line = match written {
        Err(number) => format!("{number} 0"),
        Ok(_) => format!("0 {} {}", length, shown::hex(&buffer[..length])),
    };
    line + shown::tail(&buffer[length..])
}

fn write_to(buffer: &mut [u8], what: &Writing) -> Result<usize, u8> {
    match what {
        Writing::Frame { layout, payload, values } => {
            let value_of = |name: &str| {
                let place = layout.fields.iter().position(|field| field.name == name);
                values[place.expect("a field of this kind")]
            };
            frames::write(&Frame::new(layout.kind, payload, value_of), buffer)
        }
        Writing::ErrorPage(values) => pages::write_10h(values, buffer),
        Writing::Counters { mask, values } => pages::write_11h(*mask, values, buffer),
    }
}
