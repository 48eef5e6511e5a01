//! Contents must not show: pairs of random event files, and of random scripts of calls, that differ in medium bytes
//! and in the payloads of host data alone, through the programs under test. Of what a pair prints nothing may differ but
//! the payload that a send replies, and the bytes of the medium where a script asks for them.

use crate::calls::bench::Bench;
use crate::calls::command::{self, Command};
use crate::calls::LONGEST;
use crate::compare::{difference, Tested};
use crate::frames;
use crate::program::event;
use crate::random::{self, Random};
use crate::random_calls;
use std::fs;
use std::path::Path;

/// The bytes of a data frame in front of its payload.
const HEAD: usize = 4;

/// An input, its twin, and one that is told apart: a head or a tag is changed besides.
struct Pair {
    first: Vec<u8>,
    twin: Vec<u8>,
    other: Option<Vec<u8>>,
    /// Of each line that is printed, how much of it is contents.
    hides: Vec<Hides>,
}

#[derive(Clone, Copy, PartialEq)]
enum Hides {
    Nothing,
    /// The payload of the data frame that a send replies.
    Payload,
    /// A line of medium bytes.
    All,
}

/// What came of all pairs.
#[derive(Default)]
pub struct Found {
    /// Pairs that print something else, contents left out.
    pub mismatches: u64,
    /// Pairs that print other contents: these were really other.
    pub other_contents: u64,
    /// Inputs with a changed head or tag, and how many of them print something else.
    pub changed: u64,
    pub told_apart: u64,
}

/// The seeds from `from` on, `count` of them: each through the programs that play events, and those that make calls.
pub fn run(
    count: u64,
    from: u64,
    events: &[Tested],
    calls: &[Tested],
    directory: &Path,
) -> Result<Found, String> {
    fs::create_dir_all(directory).map_err(|e| e.to_string())?;
    let mut found = Found::default();
    for seed in from..from + count {
        compare(seed, &of_events(seed), events, directory, &mut found)?;
        compare(seed, &of_calls(seed), calls, directory, &mut found)?;
    }
    Ok(found)
}

fn compare(
    seed: u64,
    pair: &Pair,
    programs: &[Tested],
    directory: &Path,
    found: &mut Found,
) -> Result<(), String> {
    for program in programs {
        let printed = |name: &str, input: &[u8]| {
            let path = directory.join(format!("{seed}.{name}"));
            fs::write(&path, input).map_err(|e| e.to_string())?;
            let lines = program.lines(seed, &path)?;
            fs::remove_file(&path).map_err(|e| e.to_string())?;
            Ok::<_, String>(lines)
        };
        let (first, twin) = (printed("first", &pair.first)?, printed("twin", &pair.twin)?);
        let (shown, shown_twin) =
            (without_contents(&first, &pair.hides), without_contents(&twin, &pair.hides));
        found.other_contents += u64::from(first != twin && shown == shown_twin);
        if let Some(fault) = difference(["first", "twin"], &shown, &shown_twin) {
            found.mismatches += 1;
            println!("seed {}: {}: {}", seed, program.name(), fault);
        }
        if let Some(other) = &pair.other {
            found.changed += 1;
            found.told_apart +=
                u64::from(shown != without_contents(&printed("other", other)?, &pair.hides));
        }
    }
    Ok(())
}

/// An event file: its 07h have other bytes; in the third, the first tag that is opened is another.
fn of_events(seed: u64) -> Pair {
    let mut random = Random::seeded(seed ^ 0xC0_7E);
    let first = random::file(seed).bytes;
    let (mut twin, mut hides, mut opened, mut at) = (first.clone(), vec![], None, 0);
    while let Some(length) = first.get(at).and_then(|&kind| event::body_length(kind)) {
        if at + 1 + length > first.len() || (at > 0 && first[at] == event::SETTINGS) {
            break;
        }
        match first[at] {
            event::DATA => twin[at + 1] = other_byte(&mut random, first[at + 1]),
            event::OPEN => opened = opened.or(Some(at + 1)),
            _ => {}
        }
        hides.push(if first[at] == event::SEND { Hides::Payload } else { Hides::Nothing });
        at += 1 + length;
    }
    let other = opened.map(|at| {
        let mut other = twin.clone();
        other[at] ^= 0x80;
        other
    });
    Pair { first, twin, other, hides }
}

/// A script: another fill, and other payloads; in the third, the first data frame has another kind. How many lines
/// each line of a script prints, the model tells.
fn of_calls(seed: u64) -> Pair {
    let mut random = Random::seeded(seed ^ 0xC0_7E);
    let script = random_calls::script(seed, random_calls::how_many(seed)).bytes;
    let (mut bench, mut changed) = (Bench::new(), false);
    let mut pair = Pair {
        first: b"fill 0\n".to_vec(),
        twin: b"fill 7b\n".to_vec(),
        other: None,
        hides: vec![],
    };
    let mut other = pair.twin.clone();
    for line in script.split(|&c| c == b'\n') {
        let parsed = if line.len() > LONGEST { Err(()) } else { command::parse(line) };
        let (printed, hides) = match &parsed {
            Ok(None) => (0, Hides::Nothing),
            Ok(Some(command)) => (bench.run(command).len(), hidden_in(command)),
            Err(()) => (1, Hides::Nothing),
        };
        pair.hides.extend(vec![hides; printed]);
        let line_of_twin = match &parsed {
            Ok(Some(command)) => with_other_contents(command, &mut random),
            _ => None,
        };
        let line_of_twin = line_of_twin.unwrap_or_else(|| line.to_vec());
        let data = line_of_twin.starts_with(b"frame 46") && !changed;
        changed |= data;
        for (text, line) in [(&mut pair.first, line), (&mut pair.twin, &line_of_twin)] {
            text.extend(line);
            text.push(b'\n');
        }
        other.extend(if data { [b"frame 47", &line_of_twin[8..]].concat() } else { line_of_twin });
        other.push(b'\n');
    }
    pair.other = Some(other).filter(|_| changed);
    pair
}

fn hidden_in(command: &Command) -> Hides {
    match command {
        Command::Send => Hides::Payload,
        Command::Medium { .. } => Hides::All,
        _ => Hides::Nothing,
    }
}

/// The line of a command that hands in contents, with others in their place.
fn with_other_contents(command: &Command, random: &mut Random) -> Option<Vec<u8>> {
    match command {
        Command::Fill(first) => Some(format!("fill {:x}", other_byte(random, *first)).into_bytes()),
        Command::Frame(bytes) if bytes.len() > HEAD && bytes[0] == frames::DATA => {
            let payload = bytes[HEAD..].iter().map(|&b| {
                if random.percent(50) {
                    0
                } else {
                    other_byte(random, b)
                }
            });
            let bytes = bytes[..HEAD].iter().copied().chain(payload).collect::<Vec<u8>>();
            let words: Vec<String> = bytes.iter().map(|b| format!("{b:02x}")).collect();
            Some(format!("frame {}", words.join(" ")).into_bytes())
        }
        _ => None,
    }
}

fn other_byte(random: &mut Random, byte: u8) -> u8 {
    byte.wrapping_add(1 + random.below(255) as u8)
}

/// What is printed, with zeros for the digits of what is contents.
fn without_contents(printed: &[u8], hides: &[Hides]) -> Vec<u8> {
    let mut shown = printed.to_vec();
    for (line, hides) in shown.split_mut(|&c| c == b'\n').zip(hides) {
        match hides {
            Hides::Nothing => {}
            Hides::All => line.fill(b'0'),
            Hides::Payload => {
                if let Some(equals) = line.iter().position(|&c| c == b'=') {
                    let payload = (equals + 1 + 2 * HEAD).min(line.len());
                    line[payload..].fill(b'0');
                }
            }
        }
    }
    shown
}
