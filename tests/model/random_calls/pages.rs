//! Lines that read and write frames and pages.

use super::draw::spelled;
use super::Script;
use calls::command::{counting, text_name, top};
use frames::{self, LAYOUTS};
use pages;
use random::Random;

pub fn line(s: &mut Script) {
    let line = match s.random.below(8) {
        0 => read_frame(&mut s.random),
        1 => read_pieces(&mut s.random),
        2 => read_10(&mut s.random),
        3 | 4 => read_11(&mut s.random),
        5 => write_frame(&mut s.random),
        6 => write_10(&mut s.random),
        _ => small_or_counters(&mut s.random),
    };
    s.line(&line);
}

fn read_frame(r: &mut Random) -> String {
    let layout = &LAYOUTS[r.below(8) as usize];
    let longer = r.one_of(&[0, 0, 0, 1, 4, 8]);
    let mut bytes = r.bytes(layout.length + longer);
    bytes[0] = layout.kind;
    if r.percent(10) {
        bytes.pop();
    }
    format!("read frame {}", spelled(&bytes))
}

fn read_pieces(r: &mut Random) -> String {
    let mut bytes = Vec::new();
    for _ in 0..r.below(4) {
        let layout = &LAYOUTS[r.below(8) as usize];
        let mut piece = r.bytes(layout.length);
        piece[0] = layout.kind;
        bytes.extend(piece);
    }
    if r.percent(30) {
        let more = 1 + r.below(9) as usize;
        bytes.extend(r.bytes(more));
    }
    format!("read pieces {}", spelled(&bytes)).trim_end().to_string()
}

/// A page whose sum is right, mostly.
fn summed(r: &mut Random, mut page: Vec<u8>) -> Vec<u8> {
    page.resize(pages::PAGE, 0);
    let sum = page[..511].iter().fold(0u8, |sum, &b| sum.wrapping_add(b));
    page[511] = sum.wrapping_neg();
    match r.below(12) {
        0 => page[511] = page[511].wrapping_add(1),
        1 => page.push(0),
        2 => page.truncate(511),
        _ => {}
    }
    page
}

fn read_10(r: &mut Random) -> String {
    let start = r.bytes(14);
    format!("read 10 {}", spelled(&summed(r, start)))
}

/// Entries of any width, few numbers, so that one is found twice at times.
fn read_11(r: &mut Random) -> String {
    let mut page = vec![0; 4];
    for _ in 0..r.below(8) {
        let width = r.one_of(&[1, 2, 3, 4, 1, 2, 3, 4, 0, 5]);
        let vendor = r.one_of(&[0, 0, 0, 0x8000]);
        let number = r.one_of(&[1, 2, 3, 0xA, 0xFFF, 0]) as u16;
        page.extend(&(vendor | width << 12 | number).to_le_bytes());
        let size = 2 * usize::from(width);
        page.extend(if r.percent(30) { vec![0xFF; size] } else { r.bytes(size) });
    }
    if r.percent(30) {
        // up to the area's end, where a value may pass it
        let mut filled = counting(500 - page.len(), 1);
        filled.iter_mut().for_each(|b| *b = 0x11);
        page.extend(filled);
        page.extend(r.bytes(8));
    }
    let number = r.one_of(&[1, 2, 3, 0xA, 0xFFF, 0x111, 0, 0x1000]);
    format!("read 11 {:x} {}", number, spelled(&summed(r, page)))
}

/// Just enough room, mostly.
fn room(r: &mut Random, length: usize) -> usize {
    r.one_of(&[length, length, length + 4, length.saturating_sub(1), 0x4000, 0])
}

fn write_frame(r: &mut Random) -> String {
    let layout = &LAYOUTS[r.below(8) as usize];
    if layout.kind == frames::DATA {
        let size = r.one_of(&[4, 8, 64, 6, 0, 8_192, 8_196]);
        return format!("write frame {:x} 46 {:x} {:x}", room(r, size + 4), size, r.byte());
    }
    let mut line = format!("write frame {:x} {:x}", room(r, layout.length), layout.kind);
    for field in layout.fields {
        line += &format!(" {}", named(r, field.name, layout.kind));
    }
    line
}

/// A value of the field's own bits, mostly; of more, at times.
fn named(r: &mut Random, name: &str, kind: u8) -> String {
    let top = top(name, kind);
    let bits = if name == "lba" && r.percent(90) { 0xFFFF_FFFF_FFFF } else { top };
    let bits = if name == "status" && kind == 0xA1 && r.percent(80) { 0x77 } else { bits };
    format!("{}={:x}", text_name(name), r.word() & bits)
}

fn write_10(r: &mut Random) -> String {
    let mut line = format!("write 10 {:x}", room(r, 512));
    let nq = r.percent(30);
    for name in pages::error_names() {
        let word = match name {
            "NQ" => format!("nq={}", u8::from(nq)),
            "tag" if nq && r.percent(70) => "tag=0".to_string(),
            "tag" if r.percent(90) => format!("tag={:x}", r.below(32)),
            name => named(r, name, 0),
        };
        line += &format!(" {word}");
    }
    line
}

fn small_or_counters(r: &mut Random) -> String {
    let any = r.word() as u16;
    match r.below(3) {
        0 => format!("read row {:x}", r.one_of(&[1, 9, 0xC, 0x13, 0x14, any & 0x1F, any])),
        1 => format!("read queued {:x} {:x} {:x}", r.byte(), r.one_of(&[0, 0, 1, 0xFF]), any),
        _ => {
            let mask = r.one_of(&[0x0201, 0xFFFF, any | 0x0201, any]);
            let mut line = format!("write 11 {:x} {:x}", room(r, 512), mask);
            for _ in 0..16 {
                line += &format!(" {:x}", r.word() as u32);
            }
            line
        }
    }
}
