//! Answers as text: refusals, lengths, counters and counts in decimal; all else in hex.

use crate::device::{Entry, Record, State};
use crate::frames;
use crate::pages::Counted;

use super::bench::BEFORE;

/// Two lower-case digits a byte.
pub fn hex(bytes: &[u8]) -> String {
    bytes.iter().map(|b| format!("{b:02x}")).collect()
}

/// What a call was answered: the refusal, the length of the replies, each reply as its type, length and bytes, and
/// ` tail` if a byte behind them was changed.
pub fn called(refusal: u8, replies: &[u8], behind: &[u8]) -> String {
    let mut line = format!("{} {}", refusal, replies.len());
    for reply in frames::cut(replies) {
        line += &format!(" {}={}", kind_and_length(reply), hex(reply));
    }
    line + tail(behind)
}

/// `34:20`
pub fn kind_and_length(frame: &[u8]) -> String {
    format!("{:02X}:{}", frame[0], frame.len())
}

/// Bytes that should be as they were, are not.
pub fn tail(behind: &[u8]) -> &'static str {
    match behind.iter().all(|&b| b == BEFORE) {
        true => "",
        false => " tail",
    }
}

/// A counter: its value, `absent`, or the refusal.
pub fn counter(answer: Result<Option<u64>, u8>) -> String {
    match answer {
        Err(number) => refused(number),
        Ok(None) => "absent".to_string(),
        Ok(Some(value)) => value.to_string(),
    }
}

/// A counter of page 11h: the same, and `top` behind a value that is the largest of its own width.
pub fn page_counter(answer: Result<Option<Counted>, u8>) -> String {
    match answer {
        Ok(Some(Counted { value, top: true })) => format!("{value} top"),
        answer => counter(answer.map(|found| found.map(|counted| counted.value))),
    }
}

pub fn refused(number: u8) -> String {
    format!("refused {number}")
}

/// The whole state, a line a part. What stands behind `entry` and `record` can be given back to `set`.
pub fn state(s: &State) -> Vec<String> {
    let (halted, held) = (u8::from(s.halted), u8::from(s.held));
    let mut lines = vec![
        format!("settings {:x} {:x} {:x}", s.depth, s.capacity, s.mask),
        format!("status {:x} {:x} {} {}", s.outstanding, s.phase, halted, held),
    ];
    let entries = s.entries.iter().enumerate().filter(|(_, e)| **e != Entry::default());
    lines.extend(entries.map(|(tag, e)| entry(tag, e)));
    lines.push(record(&s.record));
    lines.push(format!("values{}", numbers(&s.counters.map(u64::from))));
    lines
}

pub fn entry(tag: usize, e: &Entry) -> String {
    let numbers = numbers(&[
        tag as u64,
        e.write.into(),
        e.first.into(),
        e.count.into(),
        e.moved.into(),
        e.features.into(),
        e.features_high.into(),
    ]);
    format!("entry{}{}", numbers, echo(&e.echo.0))
}

pub fn record(r: &Record) -> String {
    let numbers = numbers(&[r.set.into(), r.nq.into(), r.tag.into(), r.error.into()]);
    format!("record{}{}", numbers, echo(&r.echo.0))
}

fn echo(bytes: &[u8; 9]) -> String {
    numbers(&bytes.map(u64::from))
}

/// Each in hex, behind a blank.
fn numbers(values: &[u64]) -> String {
    values.iter().map(|v| format!(" {v:x}")).collect()
}
