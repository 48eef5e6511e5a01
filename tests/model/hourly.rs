//! The hourly table, from its rules: pages are walked here once into a map, and
//! the table is made hour by hour from a map of pages. Where there is none, what
//! is said of it.

use crate::pages::PAGE;
use crate::random::Random;
use std::collections::BTreeMap;
use std::fmt::Write;

/// A value and its width in bytes, by the counter's number.
type Values = BTreeMap<u16, (u64, usize)>;

/// The values of a page; `None` where it may not be read for all of `asked`.
fn walk(page: &[u8], asked: &[u16]) -> Option<Values> {
    let mut values = Values::new();
    let mut at = 4;
    while at < 508 {
        let id = u16::from_le_bytes([page[at], page[at + 1]]);
        if id == 0 {
            break;
        }
        let width = 2 * usize::from(id >> 12 & 7);
        let end = at + 2 + width;
        if width == 0 || width > 8 || end > 508 {
            return None;
        }
        if id & 0x8000 == 0 {
            let number = id & 0xfff;
            if number == 0 || values.contains_key(&number) && asked.contains(&number) {
                return None;
            }
            let value = page[at + 2..end].iter().rev().fold(0, |value, &byte| value << 8 | u64::from(byte));
            values.entry(number).or_insert((value, width));
        }
        at = end;
    }
    Some(values)
}

fn is_top((value, width): (u64, usize)) -> bool {
    value == u64::MAX >> (64 - 8 * width)
}

/// Why there is no table: the refusal's number, the sample at fault, and what is wrong.
struct Refused {
    number: u8,
    at: Option<usize>,
    why: String,
}

fn refused<T>(number: u8, at: Option<usize>, why: &str) -> Result<T, Refused> {
    Err(Refused { number, at, why: why.to_string() })
}

/// Whether all samples and counters may be read; but for 71.
fn ask(samples: &[(u64, Vec<u8>)], asked: &[u16]) -> Result<(), Refused> {
    if let Some(at) = samples.iter().position(|(_, page)| page.len() != PAGE) {
        let length = samples[at].1.len();
        let length = if length > PAGE { "more than 512".to_string() } else { length.to_string() };
        return refused(20, Some(at), &format!("the length of the page is {length}, not 512"));
    }
    if asked.iter().any(|number| !(1..=0xfff).contains(number)) {
        return refused(23, None, "not 1 to FFF");
    }
    if let Some(at) = samples.iter().position(|(_, page)| page.iter().fold(0u8, |sum, &byte| sum.wrapping_add(byte)) != 0) {
        return refused(21, Some(at), "the bytes of the page do not add up to 0");
    }
    if let Some(at) = samples.iter().position(|(_, page)| walk(page, asked).is_none()) {
        return refused(22, Some(at), "an entry that no page may have, or two of a counter that is asked for");
    }
    for at in 1..samples.len() {
        if samples[at].0 < samples[at - 1].0 {
            return refused(70, Some(at), "the hour is lower than the one before it");
        }
    }
    Ok(())
}

fn table(samples: &[(u64, Vec<u8>)], asked: &[u16]) -> Result<String, Refused> {
    ask(samples, asked)?;
    let hours: BTreeMap<u64, Values> = samples.iter().filter_map(|(hour, page)| Some((*hour, walk(page, asked)?))).collect();
    let mut text = String::from("hour,counter,change\r\n");
    let (Some(&first), Some(&last)) = (hours.keys().next(), hours.keys().last()) else {
        return Ok(text);
    };
    for hour in first..=last {
        for number in asked {
            let _ = write!(text, "{hour},{number:03X},");
            if hour > first {
                let old = hours.get(&(hour - 1)).and_then(|values| values.get(number));
                let new = hours.get(&hour).and_then(|values| values.get(number));
                if let (Some(&old), Some(&new)) = (old, new) {
                    if new.0 >= old.0 && !is_top(old) && !is_top(new) {
                        let _ = write!(text, "{}", new.0 - old.0);
                    }
                }
            }
            text.push_str("\r\n");
        }
    }
    Ok(text)
}

/// What the program prints, what it says on standard error, and its exit status.
pub struct Told {
    pub text: String,
    pub said: String,
    pub status: i32,
}

/// A name as it is said: no byte of it is a terminal's command, and it is cut.
fn shown(name: &[u8]) -> String {
    let mut text = String::new();
    for &byte in name.iter().take(255) {
        match byte {
            b'\n' => text.push_str("\\n"),
            b'\r' => text.push_str("\\r"),
            b'\t' => text.push_str("\\t"),
            b'\\' | b'\'' | b'"' => {
                text.push('\\');
                text.push(char::from(byte));
            }
            b' '..=b'~' => text.push(char::from(byte)),
            _ => {
                let _ = write!(text, "\\x{byte:02x}");
            }
        }
    }
    if name.len() > 255 {
        text.push_str("..");
    }
    text
}

/// The hour of a line, if it has one, and its page; or what is wrong.
fn sample(line: &[u8]) -> (Option<u64>, Result<Vec<u8>, &'static str>) {
    let Some(line) = line.strip_suffix(b"\n") else {
        return (None, Err("it does not end in LF"));
    };
    let Some(blank) = line.iter().position(|&byte| byte == b' ') else {
        return (None, Err("it has no blank"));
    };
    let (digits, page) = (&line[..blank], &line[blank + 1..]);
    let number = |digits: &[u8]| std::str::from_utf8(digits).ok()?.parse::<u64>().ok();
    let hour = Some(digits).filter(|d| d.len() <= 20 && d.iter().all(|b| b.is_ascii_digit())).and_then(number);
    let Some(hour) = hour else {
        return (None, Err("what stands before its first blank is no hour"));
    };
    let value = |byte: u8| char::from(byte).to_digit(16);
    let bytes = page.chunks(2).map(|pair| match *pair {
        [high, low] => Some((value(high)? * 16 + value(low)?) as u8),
        _ => None,
    });
    (Some(hour), bytes.collect::<Option<Vec<u8>>>().ok_or("the page is not in hex"))
}

fn at_line(file: &str, line: usize, hour: Option<u64>, why: &str) -> String {
    let hour = hour.map_or(String::new(), |hour| format!(", hour {hour}"));
    format!("hourly: {}: line {}{hour}: {why}\n", shown(file.as_bytes()), line + 1)
}

/// What the program tells of a file that was read, whose pages stand in hex.
pub fn told(file: &str, read: &[u8], words: &[&str]) -> Told {
    let mut asked = Vec::new();
    for word in words {
        if !(1..=4).contains(&word.len()) || !word.bytes().all(|byte| byte.is_ascii_hexdigit()) {
            let said = format!("hourly: counter {}: not 1 to 4 hex digits\n", shown(word.as_bytes()));
            return Told { text: String::new(), said, status: 2 };
        }
        asked.push(u16::from_str_radix(word, 16).expect("hex"));
    }
    let mut samples = Vec::new();
    for (line, bytes) in read.split_inclusive(|&byte| byte == b'\n').enumerate() {
        match sample(bytes) {
            (Some(hour), Ok(page)) => samples.push((hour, page)),
            (hour, page) => {
                let said = at_line(file, line, hour, page.expect_err("a fault"));
                return Told { text: "stop\n".to_string(), said, status: 3 };
            }
        }
    }
    match table(&samples, &asked) {
        Ok(text) => Told { text, said: String::new(), status: 0 },
        Err(Refused { number, at, why }) => {
            let why = format!("{why} ({number})");
            let said = match at {
                Some(at) => at_line(file, at, Some(samples[at].0), &why),
                None => {
                    let none = asked.iter().find(|number| !(1..=0xfff).contains(*number)).expect("a counter");
                    format!("hourly: counter {none:03X}: {why}\n")
                }
            };
            Told { text: format!("refused {number}\n"), said, status: 1 }
        }
    }
}

const NUMBERS: [u16; 16] = [1, 2, 3, 4, 5, 6, 7, 8, 9, 10, 11, 13, 15, 16, 18, 19];

/// Samples of about so many hours: of all sixteen counters most have a value, of
/// any width, that rises, stays, falls or stands at its top; some hours have no
/// sample, and some have two.
pub fn samples(seed: u64, count: u64) -> String {
    let mut random = Random::seeded(seed);
    let mut values: Vec<u64> = NUMBERS.iter().map(|_| u64::from(random.below(1000))).collect();
    let mut text = String::new();
    let mut hour = u64::from(random.below(100));
    for _ in 0..count {
        let mut page = vec![0u8; PAGE];
        let mut at = 4;
        for (value, number) in values.iter_mut().zip(NUMBERS) {
            *value = match random.below(20) {
                0 => u64::from(random.below(50)),
                1 => 0xffff,
                2 => 0xffff_ffff,
                3 => u64::MAX,
                4..=12 => *value,
                _ => value.wrapping_add(u64::from(random.below(1000))),
            };
            let least = (1..=4).find(|width| *value <= u64::MAX >> (64 - 16 * width)).unwrap_or(4);
            let width = if random.percent(80) { least } else { 4 };
            if random.percent(95) && at + 10 <= 508 {
                page[at..at + 2].copy_from_slice(&((width as u16) << 12 | number).to_le_bytes());
                page[at + 2..at + 2 + 2 * width].copy_from_slice(&value.to_le_bytes()[..2 * width]);
                at += 2 + 2 * width;
            }
        }
        let sum = page.iter().fold(0u8, |sum, &byte| sum.wrapping_add(byte));
        page[PAGE - 1] = sum.wrapping_neg();
        let _ = write!(text, "{hour} ");
        for byte in page {
            let _ = write!(text, "{byte:02x}");
        }
        text.push('\n');
        hour += match random.below(20) {
            0 => 0,
            1 => u64::from(random.below(5)),
            _ => 1,
        };
    }
    text
}

/// The same, with something wrong at a line or two.
pub fn faults(seed: u64, count: u64) -> Vec<u8> {
    let mut random = Random::seeded(seed);
    let text = samples(seed, count);
    let mut lines: Vec<Vec<u8>> = text.split_inclusive('\n').map(|line| line.as_bytes().to_vec()).collect();
    for _ in 0..=random.below(2) {
        let at = random.below(lines.len() as u32) as usize;
        let line = &mut lines[at];
        let place = |random: &mut Random, line: &[u8]| random.below(line.len() as u32) as usize;
        match random.below(12) {
            0 => line.truncate(line.len() - 1),
            1 => line.retain(|&byte| byte != b' '),
            2 => line.insert(0, b"+- \x1b"[random.below(4) as usize]),
            3 => drop(line.remove(line.len() - 2)),
            4 => line.truncate(line.len() - 3),
            5 => line.splice(line.len() - 1.., *b"00\n").for_each(drop),
            6 => line.splice(.., *b"7 \n").for_each(drop),
            7 => line.splice(..0, *b"99999999999999999999").for_each(drop),
            8 => {
                let place = place(&mut random, line);
                line[place] = [b'g', 0x1b, 0xff, b'\r'][random.below(4) as usize];
            }
            9 => {
                let place = place(&mut random, line);
                line[place] = b'7';
            }
            10 => line.splice(..0, *b"1").for_each(drop),
            _ => {
                let blank = line.iter().position(|&byte| byte == b' ').unwrap_or(0);
                line.splice(blank.., *b" 000000000150").for_each(drop);
                line.extend((0..1022 - 12).map(|_| b'0'));
                line.extend_from_slice(b"af\n");
            }
        }
    }
    lines.concat()
}
