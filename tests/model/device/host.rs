//! Host frames: refusals 1 to 6, then commands, control frames, BIST Activate
//! and data.

use super::command::{Command, COUNTER_PAGE, ERROR_PAGE};
use super::refusals::{self, refuse_if, Due};
use super::replies;
use super::state::{Entry, Record, State};
use super::{taken, turned_down, Answer};
use crate::frames::{self, Frame};

const REGISTER: u8 = 0x27;
const BIST: u8 = 0x58;

/// Bit 2 of the control byte.
const SRST: u64 = 1 << 2;

/// Error bytes of the answers.
pub const ABORTED: u8 = 0x04;
pub const OUT_OF_RANGE: u8 = 0x10;

/// A host frame arrives.
pub fn host_frame(state: &State, bytes: &[u8], medium: &mut [u8], reply: &mut [u8]) -> Answer {
    match due_frame(state, bytes, medium, reply) {
        Err(number) => turned_down(state, number),
        Ok(frame) => {
            let mut next = state.clone();
            let replies = act(&mut next, &frame, medium);
            taken(next, &replies, reply)
        }
    }
}

/// The frame, or the lowest refusal that is due.
fn due_frame<'a>(
    state: &State,
    bytes: &'a [u8],
    medium: &[u8],
    reply: &[u8],
) -> Result<Frame<'a>, u8> {
    refusals::check_state(state)?;
    refusals::check_medium(state, medium)?;
    refusals::check_room(reply)?;
    let frame = host_kind(bytes).ok_or(refusals::BAD_FRAME)?;
    check_time(state, &frame)?;
    check_length(state, &frame)?;
    Ok(frame)
}

/// 4: 27h, 46h or 58h in its length; kinds that only a device sends do not
/// count.
fn host_kind(bytes: &[u8]) -> Option<Frame<'_>> {
    let frame = frames::read(bytes).ok()?;
    Some(frame).filter(|f| [REGISTER, frames::DATA, BIST].contains(&f.kind))
}

fn is_command(frame: &Frame) -> bool {
    frame.kind == REGISTER && frame.get("C") == 1
}

/// 5: command while reset is held or a phase is open; BIST while a phase is
/// open; data with no write phase. Control frames are always in time.
fn check_time(state: &State, frame: &Frame) -> Due {
    let phase_open = state.phase != 0;
    let late = match frame.kind {
        frames::DATA => !state.open_entry().map_or(false, |entry| entry.write),
        BIST => phase_open,
        _ => is_command(frame) && (state.held || phase_open),
    };
    refuse_if(late, refusals::NOT_NOW)
}

/// 6: the payload is longer than what is left.
fn check_length(state: &State, frame: &Frame) -> Due {
    let left = state.open_entry().map_or(0, |entry| entry.left());
    let too_long = frame.kind == frames::DATA && frame.payload.len() > left;
    refuse_if(too_long, refusals::DATA_TOO_LONG)
}

/// What a frame that is not refused does.
fn act(state: &mut State, frame: &Frame, medium: &mut [u8]) -> Vec<Frame<'static>> {
    match frame.kind {
        frames::DATA => take_data(state, &frame.payload, medium),
        BIST => bist(state),
        _ if is_command(frame) => command(state, &Command::of(frame)),
        _ => control(state, frame.get("control") & SRST != 0),
    }
}

/// The payload goes to the medium; if more is left, an Activate follows.
fn take_data(state: &mut State, payload: &[u8], medium: &mut [u8]) -> Vec<Frame<'static>> {
    let tag = state.open_tag().expect("refusal 5 has seen a write phase");
    let at = state.entry(tag).place();
    medium[at..at + payload.len()].copy_from_slice(payload);
    state.move_on(tag, payload.len());
    if state.phase != 0 {
        vec![replies::activate()]
    } else {
        vec![]
    }
}

/// BIST Activate zeroes the counters; no reply.
fn bist(state: &mut State) -> Vec<Frame<'static>> {
    state.counters = [0; 16];
    vec![]
}

/// A control frame (C 0).
fn control(state: &mut State, srst: bool) -> Vec<Frame<'static>> {
    if srst {
        state.reset();
        state.held = true;
        vec![]
    } else if state.held {
        state.held = false;
        vec![replies::signature()]
    } else {
        vec![]
    }
}

/// How a command is answered.
#[derive(Debug, PartialEq)]
pub enum Verdict {
    Good,
    /// Status 41h with this error; nothing else happens.
    Bad(u8),
    /// The same, and the device halts.
    Halting(u8),
}

/// Answers a command. One that halts leaves its bytes in the record: under NQ
/// and with tag 0 unless it is queued.
fn command(state: &mut State, command: &Command) -> Vec<Frame<'static>> {
    let (queued, echo) = (command.is_queued(), command.echo);
    let verdict = if queued { judge_queued(state, command) } else { judge_other(state, command) };
    match verdict {
        Verdict::Good if queued => accept(state, command),
        Verdict::Good if command.is_identify() => identify(state, command),
        Verdict::Good => read_log(state, command),
        Verdict::Bad(error) => vec![replies::bad(&echo, error)],
        Verdict::Halting(error) => {
            let tag = if queued { echo.tag() as u8 } else { 0 };
            state.halt(Record { set: true, nq: !queued, tag, error, echo });
            vec![replies::bad(&echo, error)]
        }
    }
}

/// A queued command's rules 1 to 4: the first that holds.
pub fn judge_queued(state: &State, command: &Command) -> Verdict {
    let tag = command.echo.tag();
    let end = command.echo.lba() + u64::from(command.sectors());
    if state.halted {
        Verdict::Bad(ABORTED)
    } else if tag >= state.depth || state.is_outstanding(tag) {
        Verdict::Halting(ABORTED)
    } else if end > u64::from(state.capacity) {
        Verdict::Halting(OUT_OF_RANGE)
    } else {
        Verdict::Good
    }
}

/// Rule 4: the tag is outstanding, nothing has moved.
fn accept(state: &mut State, command: &Command) -> Vec<Frame<'static>> {
    let echo = command.echo;
    state.outstanding |= 1 << echo.tag();
    state.entries[echo.tag() as usize] = Entry {
        write: command.is_write(),
        first: echo.lba() as u32,
        count: command.sectors(),
        moved: 0,
        features: command.features,
        features_high: command.features_high,
        echo,
    };
    vec![replies::good(&echo)]
}

/// Any other command: its rules, in their order.
fn judge_other(state: &State, command: &Command) -> Verdict {
    let page = command.log_page();
    if state.halted && page != Some(ERROR_PAGE) {
        Verdict::Bad(ABORTED)
    } else if state.outstanding != 0 {
        Verdict::Halting(ABORTED)
    } else if page.is_none() && !command.is_identify() {
        Verdict::Bad(ABORTED)
    } else {
        Verdict::Good
    }
}

/// A good READ LOG EXT: the sweep if halted, and the halt ends; PIO Setup; the
/// page. The record stays. Zeroing comes after the page is made.
fn read_log(state: &mut State, command: &Command) -> Vec<Frame<'static>> {
    let mut sent = if state.halted { vec![replies::sweep()] } else { vec![] };
    state.halted = false;
    sent.push(replies::pio_setup(&command.echo));
    if command.log_page() == Some(COUNTER_PAGE) {
        sent.push(replies::counter_page(state));
        if command.asks_zeroing() {
            state.counters = [0; 16];
        }
    } else {
        sent.push(replies::error_page(&state.record));
    }
    sent
}

/// A good IDENTIFY DEVICE: PIO Setup and the page. The state stays.
fn identify(state: &State, command: &Command) -> Vec<Frame<'static>> {
    vec![replies::pio_setup(&command.echo), replies::identity_page(state)]
}
