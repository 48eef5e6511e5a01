//! States that contradict themselves: each clause alone, and states of any kind.

use super::{draw, Script};
use calls::shown;
use device::{clauses, Echo, Entry, Record, State};

/// A clause that holds alone, or with those that it cannot be without; a call or two; and a sound state again.
pub fn alone(s: &mut Script) {
    let clauses = clauses::all_names();
    let clause = clauses[s.random.below(clauses.len() as u32) as usize];
    let sound = s.bench.state;
    if clauses::contradicts(&sound) {
        return draw::power(s);
    }
    let state = match (0..40).map(|_| broken(s, clause)).find(|state| is_alone(clause, state)) {
        Some(state) => state,
        None => return,
    };
    set_all(s, &state);
    for _ in 0..1 + s.random.below(3) {
        draw::any_call(s);
    }
    if s.random.percent(30) {
        s.line("show");
    }
    if s.random.percent(80) {
        set_all(s, &sound);
    } else {
        draw::power(s);
    }
}

/// Two cannot be alone: bytes never name 0 sectors, and what has moved above count is neither 0 nor count.
fn is_alone(clause: &str, state: &State) -> bool {
    let mut names = clauses::names(state);
    if clause == "count 0" {
        names.retain(|&name| name != "bytes name another count");
    }
    if clause == "moved above count" {
        names.retain(|&name| name != "moved between, no phase of its own");
    }
    names == [clause]
}

/// The state at hand, or one with a command more, with a change that should break the clause.
fn broken(s: &mut Script, clause: &str) -> State {
    let mut state = s.bench.state;
    let r = &mut s.random;
    if state.outstanding == 0 && !state.halted && !state.held && r.percent(70) {
        let tag = r.below(32) % state.depth;
        with_command(&mut state, tag, r.percent(50));
    }
    let tags: Vec<u32> = state.tags().collect();
    let tag = if tags.is_empty() { r.below(32) } else { r.one_of(&tags) };
    let idle = r.below(32);
    let row = r.one_of(&[1, 2, 3, 4, 5, 6, 7, 8, 10, 11, 12, 13, 14, 15]);
    let (word, bit) = (r.word() as u32, 1u8 << r.below(8));
    let entry = &mut state.entries[tag as usize];
    let bytes = (entry.bytes() as u32).max(4);
    match clause {
        "settings" => match r.below(3) {
            0 => state.depth = r.one_of(&[0, 33, word]),
            1 => state.capacity = r.one_of(&[0, 65_537, word]),
            _ => state.mask &= r.one_of(&[0xFFFE, 0xFDFF, 0xFDFE]),
        },
        "tag at or above the depth" => state.depth = tag,
        "range past capacity" => state.capacity = (entry.end() as u32).saturating_sub(1),
        "count 0" => entry.count = 0,
        "bytes name another tag" => entry.echo.0[7] ^= bit | 8,
        "bytes name another first sector" => entry.echo.0[r.one_of(&[0, 1, 2, 4, 5, 6])] ^= bit,
        "bytes name another count" => entry.features ^= bit,
        "moved above count" => entry.moved = bytes + 4 * (1 + r.below(9)),
        "moved not a multiple of 4" => {
            entry.moved = 1 + r.below(bytes - 1) | 1;
            state.phase = tag + 1;
        }
        "moved between, no phase of its own" => {
            entry.moved = 4 * (1 + r.below(bytes / 4));
            state.phase = r.one_of(&[0, state.phase]);
        }
        "open tag not outstanding" => state.phase = r.one_of(&[1 + idle, 33, 259, word.max(1)]),
        "open tag all moved" => {
            entry.moved = bytes;
            state.phase = tag + 1;
        }
        "halted with something outstanding" => state.halted = true,
        "held with something outstanding" => state.held = true,
        "halted and held" => {
            state.halted = true;
            state.held = true;
        }
        "held with a record" => {
            state.record = record(word, tag);
            state.held = true;
        }
        "record tag above 31" => state.record = record(word, 32 + word % 224),
        "record NQ with a tag" => state.record = Record { nq: true, ..record(word, 1 + tag % 31) },
        "blank record not zero" => {
            state.record = Record { set: false, ..record(word, tag) };
        }
        "unkept row not zero" => {
            state.mask &= !(1 << row);
            state.counters[row] = word.max(1);
        }
        _ => state.entries[idle as usize].echo.0[r.below(9) as usize] = bit,
    }
    state
}

/// Tag, first sector 0, one sector, as its command would leave it.
fn with_command(state: &mut State, tag: u32, write: bool) {
    state.outstanding |= 1 << tag;
    let echo = Echo([0, 0, 0, 0x40, 0, 0, 0, (tag << 3) as u8, 0]);
    let plain = Entry { write, count: 1, features: 1, echo, ..Entry::default() };
    state.entries[tag as usize] = plain;
}

fn record(word: u32, tag: u32) -> Record {
    let [a, b, c, d] = word.to_le_bytes();
    Record {
        set: true,
        nq: false,
        tag: tag as u8,
        error: a,
        echo: Echo([b, c, d, a, b, c, d, a, b]),
    }
}

/// Any parts of the state at once, from few values, so that some are sound.
pub fn any(s: &mut Script) {
    for _ in 0..1 + s.random.below(4) {
        let r = &mut s.random;
        let tag = r.below(32);
        let (word, small) = (r.word() as u32, r.below(40));
        let line = match r.below(9) {
            0 => format!("set depth {small:x}"),
            1 => format!("set capacity {:x}", r.one_of(&[1, 64, small, word])),
            2 => format!("set mask {:x}", r.one_of(&[0x0201, 0xFFFF, word & 0xFFFF])),
            3 => format!("set outstanding {:x}", r.one_of(&[0, 1 << tag, word])),
            4 => format!("set phase {:x}", r.one_of(&[0, tag + 1, small, word])),
            5 => format!("set {} {}", r.one_of(&["halted", "held"]), r.below(2)),
            6 => format!("set value {:x} {:x}", r.below(16), r.one_of(&[0, word, u32::MAX])),
            7 => {
                format!("set entry {tag:x} {} 0 1 0 1 0 0 0 0 40 0 0 0 {:x} 0", r.below(2), tag * 8)
            }
            _ => format!("set record {} 0 {tag:x} {:x} 0 0 0 0 0 0 0 0 0", r.below(2), small % 2),
        };
        s.line(&line);
    }
    draw::any_call(s);
    if s.random.percent(50) {
        draw::power(s);
    }
}

/// `set` lines that make this state of the one at hand.
fn set_all(s: &mut Script, wanted: &State) {
    let now = s.bench.state;
    let words = [
        ("depth", now.depth, wanted.depth),
        ("capacity", now.capacity, wanted.capacity),
        ("mask", now.mask.into(), wanted.mask.into()),
        ("outstanding", now.outstanding, wanted.outstanding),
        ("phase", now.phase, wanted.phase),
        ("halted", now.halted.into(), wanted.halted.into()),
        ("held", now.held.into(), wanted.held.into()),
    ];
    for (name, from, to) in words {
        if from != to {
            s.line(&format!("set {name} {to:x}"));
        }
    }
    for tag in 0..32 {
        if now.entries[tag] != wanted.entries[tag] {
            s.line(&format!("set {}", shown::entry(tag, &wanted.entries[tag])));
        }
    }
    if now.record != wanted.record {
        s.line(&format!("set {}", shown::record(&wanted.record)));
    }
    for row in 0..16 {
        if now.counters[row] != wanted.counters[row] {
            s.line(&format!("set value {:x} {:x}", row, wanted.counters[row]));
        }
    }
}
