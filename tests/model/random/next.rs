//! The next event, chosen by what the device would take just now.

use super::frame;
use super::Random;
use crate::device::State;
use crate::program::event;

pub fn event(random: &mut Random, state: &State) -> Vec<u8> {
    if random.percent(7) {
        return anything(random);
    }
    if state.held {
        held(random)
    } else if state.halted {
        halted(random, state)
    } else if let Some(tag) = state.open_tag() {
        in_phase(random, state, tag)
    } else if state.outstanding == 0 {
        idle(random, state)
    } else {
        busy(random, state)
    }
}

/// Any kind with any body.
fn anything(random: &mut Random) -> Vec<u8> {
    let kind = random.one_of(&[0x01, 0x02, 0x03, 0x04, 0x05, 0x06, 0x07, 0x27, 0x58]);
    let body = random.bytes(event::body_length(kind).expect("a known kind"));
    let mut bytes = [&[kind], &body[..]].concat();
    if kind != event::REGISTER && random.percent(50) {
        bytes[1..].iter_mut().for_each(|byte| *byte &= 31);
    }
    bytes
}

fn held(random: &mut Random) -> Vec<u8> {
    match random.below(10) {
        0..=5 => frame::release(random),
        6 => frame::srst(random),
        7 => vec![event::COMRESET],
        8 => frame::bist(random),
        _ => link(random),
    }
}

fn halted(random: &mut Random, state: &State) -> Vec<u8> {
    match random.below(16) {
        0..=5 => frame::read_log(random, 0x10),
        6 | 7 => frame::read_log(random, 0x11),
        8 | 9 => frame::queued(random, state),
        10 => frame::other(random),
        11 => frame::srst(random),
        12 => vec![event::COMRESET],
        13 => frame::bist(random),
        14 => frame::release(random),
        _ => link(random),
    }
}

/// Data of the phase, mostly.
fn in_phase(random: &mut Random, state: &State, tag: u32) -> Vec<u8> {
    let write = state.entry(tag).write;
    match random.below(24) {
        0 => media_error(random, state),
        1 if random.percent(40) => frame::srst(random),
        2 if random.percent(40) => vec![event::COMRESET],
        3 => link(random),
        4 => frame::release(random),
        5 => out_of_place(random, state, write),
        _ if write => vec![event::DATA, random.byte()],
        _ => vec![event::SEND],
    }
}

/// What a phase refuses.
fn out_of_place(random: &mut Random, state: &State, write: bool) -> Vec<u8> {
    match random.below(6) {
        0 => open(random, state),
        1 => finish(random, state),
        2 => frame::queued(random, state),
        3 => frame::read_log(random, 0x10),
        4 => frame::bist(random),
        _ if write => vec![event::SEND],
        _ => vec![event::DATA, random.byte()],
    }
}

fn idle(random: &mut Random, state: &State) -> Vec<u8> {
    match random.below(20) {
        0 => frame::read_log(random, 0x10),
        1 | 2 => frame::read_log(random, 0x11),
        3 => frame::other(random),
        4 => frame::bist(random),
        5 | 6 => link(random),
        7 if random.percent(50) => frame::srst(random),
        8 => vec![event::COMRESET],
        9 => frame::release(random),
        _ => frame::queued(random, state),
    }
}

fn busy(random: &mut Random, state: &State) -> Vec<u8> {
    match random.below(60) {
        0 => media_error(random, state),
        1 => frame::read_log(random, 0x10),
        2 if random.percent(30) => frame::other(random),
        3 if random.percent(30) => frame::srst(random),
        4 if random.percent(30) => vec![event::COMRESET],
        5..=7 => link(random),
        8 => frame::bist(random),
        9 => frame::release(random),
        10..=19 => finish(random, state),
        20..=40 => open(random, state),
        _ => frame::queued(random, state),
    }
}

fn link(random: &mut Random) -> Vec<u8> {
    vec![event::LINK, random.below(17) as u8]
}

/// Tags that are outstanding and wholly moved, or not.
fn tags(state: &State, moved: bool) -> Vec<u32> {
    let like = |&tag: &u32| state.entry(tag).all_moved() == moved;
    state.tags().filter(like).collect()
}

/// Of a tag with something to move, mostly.
fn open(random: &mut Random, state: &State) -> Vec<u8> {
    let waiting = tags(state, false);
    if waiting.is_empty() || random.percent(4) {
        vec![event::OPEN, random.below(33) as u8]
    } else {
        vec![event::OPEN, random.one_of(&waiting) as u8]
    }
}

/// Some or all of the tags that are wholly moved; at times one too many.
fn finish(random: &mut Random, state: &State) -> Vec<u8> {
    let moved = tags(state, true);
    let mut set: u32 = moved.iter().map(|&tag| 1 << tag).sum();
    if random.percent(50) {
        set &= random.word() as u32;
    }
    let waiting = tags(state, false);
    if !waiting.is_empty() && random.percent(6) {
        set |= 1 << random.one_of(&waiting);
    }
    if random.percent(3) {
        set |= 1 << random.below(32);
    }
    [&[event::FINISH][..], &set.to_le_bytes()].concat()
}

/// Mostly at a sector of the command's range.
fn media_error(random: &mut Random, state: &State) -> Vec<u8> {
    let outstanding: Vec<u32> = state.tags().collect();
    if outstanding.is_empty() {
        return anything(random);
    }
    let tag = random.one_of(&outstanding);
    let entry = state.entry(tag);
    let inside = entry.first + random.below(entry.count);
    let behind = entry.first + entry.count;
    let before = entry.first.wrapping_sub(1);
    let last = behind - 1;
    let sector = random.one_of(&[inside, inside, inside, entry.first, last, behind, before]);
    let any = random.byte();
    let error = random.one_of(&[0x40, 0x80, 0x84, any]);
    [&[event::MEDIA_ERROR, tag as u8, error][..], &sector.to_le_bytes()].concat()
}
