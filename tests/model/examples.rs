//! The examples, over the model.

use crate::device::command::Command;
use crate::device::events;
use crate::device::host::{self, Verdict, OUT_OF_RANGE};
use crate::frames::{self, Frame};
use crate::pages;

/// Each example with whether it holds.
pub fn all() -> Vec<(&'static str, bool)> {
    vec![
        ("blank page 10h: sum byte 80h", blank_page()),
        ("media error, tag 5, error 40h, sector 64h: sum byte AEh", media_error_page()),
        ("finish tags 0 and 5: A1 40 40 00 21 00 00 00", finished_tags()),
        ("sweep: A1 00 40 00 FF FF FF FF", sweep()),
        ("that error: A1 40 41 40 00 00 00 00", media_error()),
        ("read setup, tag 5, 8 sectors", read_setup()),
        ("mask 0201h, values 0 and 3: sum byte B2h, 0, 3, absent", two_counters()),
        ("capacity 65,536, sector 0, count field 0: good", whole_medium()),
        ("capacity 65,536, sector 1, count field 0: 10h", whole_from_one()),
        ("capacity 64, sector 63, count 1: good", last_sector()),
        ("capacity 64, sector 64, count 1: 10h", past_the_last()),
    ]
}

/// A frame with the fields named, the others 0, written into an exact buffer.
fn frame(kind: u8, fields: &[(&str, u64)]) -> Vec<u8> {
    let frame = Frame::with(kind, &[], fields);
    let mut bytes = vec![0; frames::layout(kind).map_or(0, |l| l.length)];
    assert_eq!(frames::write(&frame, &mut bytes), Ok(bytes.len()));
    assert_eq!(frames::read(&bytes), Ok(frame));
    bytes
}

fn page_10h(values: pages::ErrorPage) -> [u8; pages::PAGE] {
    let mut page = [0; pages::PAGE];
    assert_eq!(pages::write_10h(&values, &mut page), Ok(pages::PAGE));
    assert_eq!(pages::read_10h(&page), Ok(values));
    page
}

fn blank_page() -> bool {
    let page = page_10h([1, 0, 0, 0, 0, 0, 0]);
    page[0] == 0x80 && page[1..511].iter().all(|&b| b == 0) && page[511] == 0x80
}

fn media_error_page() -> bool {
    let page = page_10h([0, 5, 0x41, 0x40, 0x64, 0x40, 0x28]);
    page[..13] == [5, 0, 0x41, 0x40, 0x64, 0, 0, 0x40, 0, 0, 0, 0, 0x28] && page[511] == 0xAE
}

fn finished_tags() -> bool {
    let bytes = frame(0xA1, &[("I", 1), ("status", 0x40), ("sactive", 1 | 1 << 5)]);
    bytes == [0xA1, 0x40, 0x40, 0, 0x21, 0, 0, 0]
}

fn sweep() -> bool {
    let bytes = frame(0xA1, &[("status", 0x40), ("sactive", 0xFFFF_FFFF)]);
    bytes == [0xA1, 0, 0x40, 0, 0xFF, 0xFF, 0xFF, 0xFF]
}

fn media_error() -> bool {
    let bytes = frame(0xA1, &[("I", 1), ("status", 0x41), ("error", 0x40)]);
    bytes == [0xA1, 0x40, 0x41, 0x40, 0, 0, 0, 0]
}

fn read_setup() -> bool {
    let bytes = frame(0x41, &[("D", 1), ("tag", 5), ("byte_count", 8 * 512)]);
    let back = frames::read(&bytes).map(|f| f.get("byte_count"));
    bytes[1] == 0x20 && bytes[4] == 5 && bytes[20..24] == [0, 0x10, 0, 0] && back == Ok(4096)
}

fn two_counters() -> bool {
    let mut values = [0; 16];
    values[9] = 3;
    let mut page = [0; pages::PAGE];
    let written = pages::write_11h(0x0201, &values, &mut page);
    let read = |number| pages::read_11h(&page, number).map(|found| found.map(|counted| counted.value));
    written == Ok(pages::PAGE)
        && page[511] == 0xB2
        && (read(0x001), read(0x00A), read(0x002)) == (Ok(Some(0)), Ok(Some(3)), Ok(None))
}

/// What an idle device of this capacity answers to a queued read of tag 0.
/// The decision needs no medium.
fn judged(capacity: u32, sector: u64, count_field: u8) -> Verdict {
    let state = events::power_on(32, capacity, 0x0201).state;
    let fields = [("C", 1), ("command", 0x60), ("lba", sector), ("features", count_field.into())];
    let command = Command::of(&Frame::with(0x27, &[], &fields));
    host::judge_queued(&state, &command)
}

fn whole_medium() -> bool {
    judged(65_536, 0, 0) == Verdict::Good
}

fn whole_from_one() -> bool {
    judged(65_536, 1, 0) == Verdict::Halting(OUT_OF_RANGE)
}

fn last_sector() -> bool {
    judged(64, 63, 1) == Verdict::Good
}

fn past_the_last() -> bool {
    judged(64, 64, 1) == Verdict::Halting(OUT_OF_RANGE)
}
