//! Files of one kind of event, and of no more else than it needs.

use super::{frames, Made, Maker, CAPACITY, DEPTH};
use crate::input::kind;

/// Sectors of one full data frame.
const FULL: u32 = 16;

/// Where the commands of a full frame stand: over the whole medium in turn.
fn place(tag: u8) -> u32 {
    FULL * (u32::from(tag) % (CAPACITY / FULL))
}

/// What a file of the kind repeats.
pub(super) fn step(kind: &str) -> Option<fn(&mut Maker) -> Made> {
    Some(match kind {
        "command" => commands,
        "open" => open,
        "send" => |maker| moves(maker, false),
        "data" => |maker| moves(maker, true),
        "finish" => finish,
        "media" => media,
        "link" => |maker| maker.event(&[kind::LINK_EVENT, 1]),
        "comreset" => |maker| maker.event(&[kind::COMRESET]),
        "log" => log,
        _ => return None,
    })
}

fn commands(maker: &mut Maker) -> Made {
    for tag in 0..DEPTH {
        maker.event(&frames::queued(false, tag, place(tag), FULL))?;
    }
    maker.event(&[kind::COMRESET])
}

fn open(maker: &mut Maker) -> Made {
    maker.event(&frames::queued(false, 0, 0, FULL))?;
    maker.event(&[kind::OPEN, 0])?;
    maker.event(&[kind::COMRESET])
}

/// Commands over the whole medium, of four full frames each.
fn moves(maker: &mut Maker, write: bool) -> Made {
    for tag in 0..DEPTH {
        maker.event(&frames::queued(write, tag, 0, CAPACITY))?;
        maker.move_all(tag)?;
    }
    maker.event(&frames::finish(u32::MAX))
}

fn finish(maker: &mut Maker) -> Made {
    for tag in 0..DEPTH {
        maker.event(&frames::queued(false, tag, place(tag), FULL))?;
        maker.move_all(tag)?;
        maker.event(&frames::finish(1 << tag))?;
    }
    Ok(())
}

fn media(maker: &mut Maker) -> Made {
    maker.event(&frames::queued(false, 0, 0, FULL))?;
    maker.event(&frames::media_error(0, 0x40, 0))?;
    maker.event(&[kind::COMRESET])
}

fn log(maker: &mut Maker) -> Made {
    maker.event(&frames::read_log(0x10, false))?;
    maker.event(&frames::read_log(0x11, false))
}
