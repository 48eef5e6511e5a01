//! The next lines of a random script, chosen by what the device would take just now.

use super::{clause, pages, texts, Script};
use calls::MEDIUM;
use device::state::SECTOR;
use device::Entry;
use program::event::{self, Event, LONGEST_BODY};
use random::{frame, next};
use std::fmt::Write;

/// One thing more: mostly a call.
pub fn next(s: &mut Script) {
    match s.random.below(100) {
        0..=1 => power(s),
        2..=5 => lend(s),
        6 => fill(s),
        8..=11 => s.line("show"),
        12..=14 => medium(s),
        15..=18 => counter(s),
        19 => s.line("count"),
        20..=22 => judge(s),
        23..=26 => clause::alone(s),
        27 => clause::any(s),
        28..=30 => pages::line(s),
        31..=32 => texts::nonsense(s),
        33..=36 => odd_frame(s),
        37..=44 => short_data(s),
        45..=46 => tally(s),
        _ => call(s),
    }
}

/// Settings, mostly in bounds, and mostly of few sectors; at times of more than two bytes tell, up to all.
pub fn power(s: &mut Script) {
    let r = &mut s.random;
    let any_depth = 1 + r.below(32);
    let depth = r.one_of(&[1, 2, 4, 31, 32, 32, 32, any_depth]);
    let any_capacity = 1 + r.below(512);
    let large = 513 + r.below(65_536 - 512);
    let capacity = r.one_of(&[1, 16, 17, 33, 64, 64, 64, 65, 512, any_capacity]);
    let some_rows = r.word() as u16 | 0x0201;
    let mask = r.one_of(&[0x0201, 0xFFFF, some_rows]);
    let line = match r.below(24) {
        0 => format!("power {:x} {:x} {:x}", r.one_of(&[0, 33, 257, u32::MAX]), capacity, mask),
        1 => format!("power {:x} {:x} {:x}", depth, r.one_of(&[0, 65_537, u32::MAX]), mask),
        2 => format!("power {:x} {:x} {:x}", depth, capacity, r.one_of(&[0, 1, 0x200, 0xFDFF])),
        3..=5 => {
            let most = r.one_of(&[513, 1_024, 32_769, 65_535, 65_536, 65_536, large, large]);
            format!("power {depth:x} {most:x} {mask:x}")
        }
        _ => format!("power {depth:x} {capacity:x} {mask:x}"),
    };
    s.line(&line);
    if s.bench.is_told_what_to_lend() {
        let whole = whole_medium(s);
        s.line(&format!("lend {whole:x} 2004"));
    }
    if s.bench.state.capacity > 512 && s.random.percent(50) {
        // the page tells the capacity, in other words where it is large
        s.line("frame 27 80 ec 00*4 a0 00*c");
    }
}

/// What the state's capacity asks for, as far as there is a medium.
fn whole_medium(s: &Script) -> u32 {
    (SECTOR as u64 * u64::from(s.bench.state.capacity)).min(MEDIUM as u64) as u32
}

/// What a call wants, or less, or more.
fn lend(s: &mut Script) {
    let whole = whole_medium(s);
    let r = &mut s.random;
    let any = r.below(MEDIUM as u32 + 1);
    let medium = r.one_of(&[whole, whole, whole, whole.saturating_sub(1), 0, any]);
    let more = r.below(0x4001);
    let reply = r.one_of(&[0x2004, 0x2004, 0x2004, 0x4000, 0x2003, 0, more]);
    s.line(&format!("lend {medium:x} {reply:x}"));
    if s.random.percent(60) {
        call(s);
        s.line(&format!("lend {whole:x} 2004"));
    }
}

fn fill(s: &mut Script) {
    let first = s.random.byte();
    s.line(&format!("fill {first:x}"));
}

fn medium(s: &mut Script) {
    let whole = whole_medium(s).max(1);
    let at = s.random.below(whole);
    let size = s.random.one_of(&[0, 1, 16, 64, 600]).min(MEDIUM as u32 - at);
    s.line(&format!("medium {at:x} {size:x}"));
}

fn counter(s: &mut Script) {
    let any = s.random.word() as u16;
    let near = s.random.below(0x16) as u16;
    let number = s.random.one_of(&[near, near, near, 0xFFF, 0x1000, any]);
    s.line(&format!("counter {number:x}"));
}

/// A queued command of any range, also where its medium could not be lent.
fn judge(s: &mut Script) {
    if s.bench.state.capacity == 0 || s.contradicts() && s.random.percent(50) {
        return;
    }
    let bytes = frame::queued(&mut s.random, &s.bench.state);
    s.line(&format!("judge {}", spelled(&bytes)));
}

/// Kinds that only a device sends, kinds that there are not, and lengths that a kind does not have.
fn odd_frame(s: &mut Script) {
    let r = &mut s.random;
    let any = r.byte();
    let kind = r.one_of(&[0x27, 0x27, 0x46, 0x46, 0x58, 0x34, 0xA1, 0x41, 0x39, 0x5F, any]);
    let length = r.one_of(&[0, 1, 3, 4, 5, 8, 12, 19, 20, 21, 28]) + r.one_of(&[0, 0, 0, 1, 4]);
    let bytes = r.bytes(length);
    let line = match length {
        0 => "frame".to_string(),
        _ => format!("frame {:02x} {}", kind, spelled(&bytes[1..])),
    };
    s.line(line.trim_end());
}

/// Host data: any length, mostly one that is taken.
fn short_data(s: &mut Script) {
    let writing = if s.contradicts() { None } else { write_phase(s) };
    let left = match writing.map(|entry| entry.left() as u32) {
        Some(left) => left,
        None if s.random.percent(80) => return call(s),
        None => 8,
    };
    let r = &mut s.random;
    let some = 4 * (1 + r.below(left.min(8_192) / 4));
    let near = left.min(8_192) - 4 + 4 * r.below(3);
    let size = r.one_of(&[some, some, some, near, near, 8_192, 4, 6, 0, 8_196]);
    let first = r.byte();
    s.line(&format!("data {size:x} {first:x}"));
}

/// A link tally: mostly of rows that are counted, a few of them or all, up to the top and above; at times one that is not.
fn tally(s: &mut Script) {
    let mask = s.bench.state.mask;
    let r = &mut s.random;
    let some = r.one_of(&[0, 5, 30, 100]);
    let odd = if r.percent(15) { r.below(16) } else { 16 };
    let mut line = "tally".to_string();
    for row in 0..16 {
        let counted = row != 0 && row != 9 && mask >> row & 1 == 1;
        let any = r.word() as u32;
        let amount = r.one_of(&[1, 3, 0xFFFF, 0x8000_0000, 0xFFFF_FFFF, any]);
        let has = row == odd || counted && r.percent(some);
        write!(line, " {:x}", if has { amount } else { 0 }).expect("a string takes all");
    }
    s.line(&line);
}

/// A call that most states take; in a state that contradicts itself any call.
fn call(s: &mut Script) {
    if s.contradicts() {
        return any_call(s);
    }
    let bytes = next::event(&mut s.random, &s.bench.state);
    let mut body = [0; LONGEST_BODY];
    body[..bytes.len() - 1].copy_from_slice(&bytes[1..]);
    let line = match event::parse(bytes[0], &body) {
        Event::Open(tag) => format!("open {tag:x}"),
        Event::Send => "send".to_string(),
        Event::Finish(set) => format!("finish {set:x}"),
        Event::MediaError { tag, error, sector } => format!("media {tag:x} {error:x} {sector:x}"),
        Event::Link(row) => format!("link {row:x}"),
        Event::Comreset => "comreset".to_string(),
        Event::Data(first) => data_due(s, first),
        Event::Register(frame) => format!("frame {}", spelled(&frame)),
        Event::Bist(frame) => format!("frame {}", spelled(&frame)),
        Event::Settings(_) => unreachable!("no settings are drawn"),
    };
    s.line(&line);
}

fn data_due(s: &Script, first: u8) -> String {
    format!("data {:x} {:x}", write_phase(s).map_or(4, |entry| entry.due()), first)
}

/// The entry whose write phase is open, in a state that does not contradict itself.
fn write_phase(s: &Script) -> Option<&Entry> {
    s.bench.state.open_entry().filter(|entry| entry.write)
}

/// Each call that is given a state, whatever it says.
pub fn any_call(s: &mut Script) {
    let r = &mut s.random;
    let (tag, byte, sector) = (r.below(33), r.byte(), r.below(70));
    let lines = [
        format!("open {tag:x}"),
        "send".to_string(),
        format!("finish {:x}", 1u64 << (tag % 32)),
        format!("media {tag:x} {byte:x} {sector:x}"),
        format!("link {:x}", 1 + tag % 15),
        format!("tally 0 {byte:x}{}", " 0".repeat(14)),
        "comreset".to_string(),
        format!("counter {:x}", 1 + tag),
        "count".to_string(),
        format!("data 4 {byte:x}"),
        format!("frame 27 80 60 01 {:02x} 00 00 40 00*4 {:02x} 00*7", sector, tag % 32 * 8),
        "frame 27 00*e 04 00*4".to_string(),
        "frame 58 00*b".to_string(),
    ];
    let line = &lines[r.below(lines.len() as u32) as usize];
    s.line(line);
}

/// Pairs with blanks between them, the last run as one word.
pub fn spelled(bytes: &[u8]) -> String {
    let last = bytes.iter().rev().take_while(|&b| Some(b) == bytes.last()).count();
    let run = if last >= 4 { last } else { 0 };
    let mut text = String::new();
    for byte in &bytes[..bytes.len() - run] {
        write!(text, "{byte:02x} ").expect("a string takes all");
    }
    if run > 0 {
        write!(text, "{:02x}*{:x}", bytes[bytes.len() - 1], run).expect("a string takes all");
    }
    text.trim_end().to_string()
}
