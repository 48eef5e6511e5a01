//! Random event files by seed. The generator runs the model alongside, so that
//! most events are taken; refused and cut-off ones are mixed in.

pub mod frame;
pub mod next;

use crate::program::event::{self, Event, LONGEST_BODY};
use crate::program::machine::Machine;
use crate::program::settings;

/// SplitMix64: small, and the same on every machine.
pub struct Random(u64);

impl Random {
    pub fn seeded(seed: u64) -> Random {
        Random(seed.wrapping_mul(0xD6E8_FEB8_6659_FD93).wrapping_add(1))
    }

    pub fn word(&mut self) -> u64 {
        self.0 = self.0.wrapping_add(0x9E37_79B9_7F4A_7C15);
        let mixed = (self.0 ^ self.0 >> 30).wrapping_mul(0xBF58_476D_1CE4_E5B9);
        let mixed = (mixed ^ mixed >> 27).wrapping_mul(0x94D0_49BB_1331_11EB);
        mixed ^ mixed >> 31
    }

    pub fn byte(&mut self) -> u8 {
        self.word() as u8
    }

    /// 0 to `bound` - 1.
    pub fn below(&mut self, bound: u32) -> u32 {
        (self.word() >> 32) as u32 % bound
    }

    /// True `parts` times in a hundred.
    pub fn percent(&mut self, parts: u32) -> bool {
        self.below(100) < parts
    }

    pub fn one_of<T: Copy>(&mut self, choices: &[T]) -> T {
        choices[self.below(choices.len() as u32) as usize]
    }

    pub fn bytes(&mut self, length: usize) -> Vec<u8> {
        (0..length).map(|_| self.byte()).collect()
    }
}

/// A file, and how many of its events behind the settings were taken.
pub struct File {
    pub bytes: Vec<u8>,
    pub events: u64,
    pub taken: u64,
}

/// How many events a file has; some files are longer than a program's buffers.
fn how_many(random: &mut Random, seed: u64) -> u32 {
    const LONG: u32 = 10_000;
    let most = random.one_of(&[10, 60, 120, 250]);
    match seed % 50 {
        0 | 25 => LONG,
        _ => 1 + random.below(most),
    }
}

/// The event file of a seed.
pub fn file(seed: u64) -> File {
    let mut random = Random::seeded(seed);
    let mut file = File { bytes: first_record(&mut random), events: 0, taken: 0 };
    let events = how_many(&mut random, seed);
    if let Some(mut machine) = powered(&file.bytes) {
        for _ in 0..events {
            let bytes = next::event(&mut random, &machine.state);
            file.taken += u64::from(machine.take(&whole_event(&bytes)) == 0);
            file.events += 1;
            file.bytes.extend(bytes);
        }
    }
    if random.percent(25) {
        file.bytes.extend(broken_end(&mut random));
    }
    file
}

/// Settings, mostly in bounds; a few files begin with something else.
fn first_record(random: &mut Random) -> Vec<u8> {
    let any_depth = 1 + random.below(32) as u8;
    let depth = random.one_of(&[1, 2, 4, 31, 32, 32, 32, any_depth]);
    let any_capacity = 1 + random.below(64);
    let capacity = random.one_of(&[1, 15, 16, 17, 33, 63, 64, 64, 64, any_capacity]);
    let some_rows = random.word() as u16 | 0x0201;
    let mask = random.one_of(&[0x0201, 0xFFFF, some_rows]);
    match random.below(60) {
        0 => odd_start(random),
        1 => settings(random.one_of(&[0, 33, 255]), capacity, mask),
        2 => settings(depth, random.one_of(&[0, 65, 65_536, 65_537, 0xFFFF_FFFF]), mask),
        3 => settings(depth, capacity, random.one_of(&[0, 0x0001, 0x0200, 0xFDFF, 0xFFFE])),
        _ => settings(depth, capacity, mask),
    }
}

/// Nothing at all, a short record, or another kind.
fn odd_start(random: &mut Random) -> Vec<u8> {
    match random.below(3) {
        0 => vec![],
        1 => {
            let mut record = settings(32, 64, 0xFFFF);
            record.truncate(random.below(8) as usize);
            record
        }
        _ => {
            let kind = 1 + random.below(255) as u8;
            [&[kind], &random.bytes(24)[..]].concat()
        }
    }
}

/// The machine that a first record makes.
fn powered(record: &[u8]) -> Option<Machine> {
    match record {
        [event::SETTINGS, body @ ..] if body.len() == 7 => match whole_event(record) {
            Event::Settings(settings) => Machine::power_on(&settings),
            _ => None,
        },
        _ => None,
    }
}

fn whole_event(bytes: &[u8]) -> Event {
    let mut body = [0; LONGEST_BODY];
    body[..bytes.len() - 1].copy_from_slice(&bytes[1..]);
    event::parse(bytes[0], &body)
}

/// A repeated settings record, an unknown kind or a body cut short, and now
/// and then more behind it, which must not be looked at.
fn broken_end(random: &mut Random) -> Vec<u8> {
    let mut end = match random.below(3) {
        0 => settings(32, 64, 0xFFFF),
        1 => vec![random.one_of(&[0x08, 0x26, 0x28, 0x34, 0x39, 0x41, 0x46, 0x5F, 0xA1, 0xFF])],
        _ => return cut_short(random),
    };
    if random.percent(50) {
        end.extend(&[event::COMRESET, event::SEND]);
    }
    end
}

fn cut_short(random: &mut Random) -> Vec<u8> {
    let with_body = [0x00, 0x01, 0x03, 0x04, 0x05, 0x07, 0x27, 0x58];
    let kind = random.one_of(&with_body);
    let length = event::body_length(kind).expect("a known kind") as u32;
    let have = random.below(length) as usize;
    [&[kind], &random.bytes(have)[..]].concat()
}
