//! What a line looks like: blanks, digits in either case, comments; and lines that mean nothing.

use super::Script;
use calls::LONGEST;
use random::Random;

/// The same line, written otherwise at times.
pub fn dressed(r: &mut Random, line: &str) -> String {
    let mut line = line.to_string();
    if r.percent(5) {
        line = line.replace(' ', "  \t");
    }
    if r.percent(5) {
        line = line.split(' ').map(|word| other_digits(word)).collect::<Vec<_>>().join(" ");
    }
    if r.percent(3) {
        line = format!("  {line} ");
    }
    match r.below(30) {
        0 => line += "  # open 1",
        1 => line += "-> 0 0",
        2 => line += "\t-> what? # -> 1",
        3 => line += "\r",
        _ => {}
    }
    line
}

/// The digits of a number in upper case, or with zeros before them; any other word as it stands.
fn other_digits(word: &str) -> String {
    let digits = word.bytes().all(|c| c.is_ascii_digit() || (b'a'..=b'f').contains(&c));
    match digits {
        true if word.len() == 2 => word.to_uppercase(),
        true => format!("00{}", word.to_uppercase()),
        false => word.to_string(),
    }
}

/// Lines that ask for nothing, and lines that are none.
pub fn nonsense(s: &mut Script) {
    match s.random.below(100) {
        0 => return s.put(&[b'#'; LONGEST]),
        1 => return s.put(&[b'#'; LONGEST + 1]),
        2 => return s.put(&[b' '; LONGEST + 1]),
        3 => {
            let length = 1 + s.random.below(40) as usize;
            let mut bytes = s.random.bytes(length);
            bytes.retain(|&c| c != b'\n');
            bytes.insert(0, b'?');
            return s.put(&bytes);
        }
        _ => {}
    }
    let line = s.random.one_of(&[
        "",
        "   ",
        "# power 1 1 201",
        "-> 0 0",
        "Open 1",
        "open\u{b}1",
        "show\u{0}",
        "count\u{c}",
        "show\u{a0}",
        "open",
        "open 1 2",
        "open 100",
        "open g",
        "open -1",
        "open +1",
        "set value 0 +",
        "frame +1 27",
        "read pieces 39 00*+3",
        "open 0x1",
        "frame 2",
        "frame 270",
        "frame 27 8g",
        "frame 00*4001",
        "frame 00*",
        "frame *4",
        "frame 0*4",
        "frame 0000*4",
        "data 2005 0",
        "data 4",
        "data 4 100",
        "finish 100000000",
        "media 0 100 0",
        "media 0 40",
        "link 100",
        "tally",
        "tally 0 0 0 0 0 0 0 0 0 0 0 0 0 0 0",
        "tally 0 0 0 0 0 0 0 0 0 0 0 0 0 0 0 0 0",
        "tally 0 0 0 0 0 0 0 0 0 0 0 0 0 0 0 100000000",
        "send 1",
        "comreset now",
        "counter 10000",
        "count 1",
        "lend 2000001 2004",
        "lend 8000 4001",
        "lend 8000",
        "fill 100",
        "set",
        "set depth",
        "set depths 1",
        "set halted 2",
        "set value 10 0",
        "set entry 20 0 0 0 0 0 0 0 0 0 0 0 0 0 0 0",
        "set entry 0 0 0 0 0 0 0 0 0 0 0 0 0 0 0",
        "set record 1 0 0 0 0 0 0 0 0 0 0 0 0 0",
        "show all",
        "medium 0 2000001",
        "medium 1ffffff 2",
        "power 100000000 1 201",
        "power 1 1 10000",
        "power 0",
        "judge 27 80 60",
        "judge 27 00 60 00*11",
        "judge 27 80 62 00*11",
        "read",
        "read page",
        "read row 10000",
        "read queued 0 0",
        "write frame 14 28",
        "write frame 14 39 0",
        "write frame 14 34 i=2 status=0 error=0 lba=0 device=0 count=0",
        "write frame 14 34 status=0 i=0 error=0 lba=0 device=0 count=0",
        "write 11 200 201 0",
        "write 10 4001 nq=0 tag=0 status=0 error=0 lba=0 device=0 count=0",
    ]);
    s.put(line.as_bytes());
}
