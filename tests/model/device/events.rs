//! Power-on, the device events, COMRESET, and a counter by its number.

use super::clauses;
use super::refusals::{self, refuse_if, Due};
use super::replies;
use super::state::{Record, State, ROW_001H, ROW_00AH};
use super::{taken, turned_down, Answer};

/// Idle, record blank, counters 0, no reply; refused, it hands back all zeros.
pub fn power_on(depth: u32, capacity: u32, mask: u16) -> Answer {
    let state = State { depth, capacity, mask, ..State::default() };
    if clauses::settings_out_of_bounds(&state) {
        turned_down(&State::default(), refusals::CONTRADICTION)
    } else {
        Answer { state, refusal: 0, length: 0 }
    }
}

/// Opens a phase for a tag: DMA Setup; for a write, an Activate follows.
pub fn open(state: &State, tag: u8, reply: &mut [u8]) -> Answer {
    if let Err(number) = check_open(state, tag, reply) {
        return turned_down(state, number);
    }
    let tag = u32::from(tag);
    let entry = state.entry(tag);
    let mut sent = vec![replies::dma_setup(tag, entry)];
    if entry.write {
        sent.push(replies::activate());
    }
    taken(State { phase: tag + 1, ..state.clone() }, &sent, reply)
}

/// 1 3 7 8 9.
fn check_open(state: &State, tag: u8, reply: &[u8]) -> Due {
    refusals::check_state(state)?;
    refusals::check_room(reply)?;
    refusals::check_outstanding(state, tag)?;
    refusals::check_no_phase(state)?;
    refuse_if(state.entry(u32::from(tag)).all_moved(), refusals::ALL_MOVED)
}

/// Sends one data frame of min(8,192, what is left) bytes from the medium.
pub fn send(state: &State, medium: &[u8], reply: &mut [u8]) -> Answer {
    match check_send(state, medium, reply) {
        Err(number) => turned_down(state, number),
        Ok(tag) => {
            let entry = state.entry(tag);
            let at = entry.place();
            let sent = [replies::data(&medium[at..at + entry.due()])];
            let mut next = state.clone();
            next.move_on(tag, entry.due());
            taken(next, &sent, reply)
        }
    }
}

/// 1 2 3 10; otherwise the tag whose read phase is open.
fn check_send(state: &State, medium: &[u8], reply: &[u8]) -> Result<u32, u8> {
    refusals::check_state(state)?;
    refusals::check_medium(state, medium)?;
    refusals::check_room(reply)?;
    state.open_tag().filter(|&tag| !state.entry(tag).write).ok_or(refusals::NO_READ_PHASE)
}

/// Finishes a set of tags.
pub fn finish(state: &State, set: u32, reply: &mut [u8]) -> Answer {
    if let Err(number) = check_finish(state, set, reply) {
        return turned_down(state, number);
    }
    let mut next = state.clone();
    tags_of(set).iter().for_each(|&tag| next.forget(tag));
    taken(next, &[replies::finished(set)], reply)
}

fn tags_of(set: u32) -> Vec<u32> {
    (0..32).filter(|&tag| set >> tag & 1 == 1).collect()
}

/// 1 3 8 11: the set is empty, or a tag of it is not outstanding or not wholly
/// moved.
fn check_finish(state: &State, set: u32, reply: &[u8]) -> Due {
    refusals::check_state(state)?;
    refusals::check_room(reply)?;
    refusals::check_no_phase(state)?;
    let done = |tag: u32| state.is_outstanding(tag) && state.entry(tag).all_moved();
    refuse_if(set == 0 || !tags_of(set).into_iter().all(done), refusals::BAD_SET)
}

/// A media error of a command, at a sector of its range: A1h with the error,
/// and the halt. The record names the failing sector.
pub fn media_error(state: &State, tag: u8, error: u8, sector: u32, reply: &mut [u8]) -> Answer {
    if let Err(number) = check_media_error(state, tag, error, sector, reply) {
        return turned_down(state, number);
    }
    let echo = state.entry(u32::from(tag)).echo.at_sector(sector);
    let mut next = state.clone();
    next.halt(Record { set: true, nq: false, tag, error, echo });
    if error >> 7 == 1 {
        next.count_one(ROW_001H);
    }
    taken(next, &[replies::media_error(error)], reply)
}

/// 1 3 7 12. The sector is judged over the whole range, moved or not.
fn check_media_error(state: &State, tag: u8, error: u8, sector: u32, reply: &[u8]) -> Due {
    refusals::check_state(state)?;
    refusals::check_room(reply)?;
    refusals::check_outstanding(state, tag)?;
    let entry = state.entry(u32::from(tag));
    let inside = sector >= entry.first && u64::from(sector) < entry.end();
    refuse_if(error == 0 || !inside, refusals::BAD_MEDIA_ERROR)
}

/// A link event adds one to its row. It lends no reply buffer.
pub fn link_event(state: &State, row: u8) -> Answer {
    if let Err(number) = check_link_event(state, row) {
        return turned_down(state, number);
    }
    let mut next = state.clone();
    next.count_one(usize::from(row));
    Answer { state: next, refusal: 0, length: 0 }
}

/// 1 13: rows 0 and 9 have events of their own.
fn check_link_event(state: &State, row: u8) -> Due {
    refusals::check_state(state)?;
    let row = usize::from(row);
    let own = row == ROW_001H || row == ROW_00AH;
    refuse_if(own || row > 15 || !state.keeps(row), refusals::BAD_ROW)
}

/// A link tally: in each row as many events as its amount says; all of them, or none if one row is refused.
pub fn link_tally(state: &State, amounts: &[u32; 16]) -> Answer {
    if let Err(number) = check_link_tally(state, amounts) {
        return turned_down(state, number);
    }
    let mut next = state.clone();
    for (row, &amount) in amounts.iter().enumerate() {
        next.count_many(row, amount);
    }
    Answer { state: next, refusal: 0, length: 0 }
}

/// 1 13: each row with an amount is asked as a link event is.
fn check_link_tally(state: &State, amounts: &[u32; 16]) -> Due {
    refusals::check_state(state)?;
    let rows = (0..16).filter(|&row| amounts[usize::from(row)] > 0);
    rows.map(|row| check_link_event(state, row)).collect()
}

/// COMRESET: as SRST and release together, counter 00Ah + 1, signature.
pub fn comreset(state: &State, reply: &mut [u8]) -> Answer {
    let due = refusals::check_state(state).and_then(|_| refusals::check_room(reply));
    if let Err(number) = due {
        return turned_down(state, number);
    }
    let mut next = state.clone();
    next.reset();
    next.held = false;
    next.count_one(ROW_00AH);
    taken(next, &[replies::signature()], reply)
}

/// A counter by its number, 1 to FFFh: 1, then 23; otherwise its value, or
/// `None` for absent.
pub fn counter(state: &State, number: u16) -> Result<Option<u32>, u8> {
    refusals::check_state(state)?;
    refuse_if(!(1..=0xFFF).contains(&number), refusals::BAD_NUMBER)?;
    Ok(state.counter(number))
}
