//! The refusals that several calls share. Each is `Err(number)` if due, so that
//! a call lists its refusals in the order they are tried.

use super::clauses;
use super::state::{State, REPLY_ROOM, SECTOR};

pub const CONTRADICTION: u8 = 1;
pub const BAD_MEDIUM: u8 = 2;
pub const NO_REPLY_ROOM: u8 = 3;
pub const BAD_FRAME: u8 = 4;
pub const NOT_NOW: u8 = 5;
pub const DATA_TOO_LONG: u8 = 6;
pub const NOT_OUTSTANDING: u8 = 7;
pub const PHASE_OPEN: u8 = 8;
pub const ALL_MOVED: u8 = 9;
pub const NO_READ_PHASE: u8 = 10;
pub const BAD_SET: u8 = 11;
pub const BAD_MEDIA_ERROR: u8 = 12;
pub const BAD_ROW: u8 = 13;
pub const BAD_NUMBER: u8 = 23;

/// Nothing due, or the number.
pub type Due = Result<(), u8>;

pub fn refuse_if(fault: bool, number: u8) -> Due {
    if fault {
        Err(number)
    } else {
        Ok(())
    }
}

/// 1: the state contradicts itself.
pub fn check_state(state: &State) -> Due {
    refuse_if(clauses::contradicts(state), CONTRADICTION)
}

/// 2: the medium is exactly 512 × capacity bytes. Capacity has passed 1.
pub fn check_medium(state: &State, medium: &[u8]) -> Due {
    refuse_if(medium.len() != SECTOR * state.capacity as usize, BAD_MEDIUM)
}

/// 3: the reply buffer holds at least 8,196 bytes.
pub fn check_room(reply: &[u8]) -> Due {
    refuse_if(reply.len() < REPLY_ROOM, NO_REPLY_ROOM)
}

/// 7: the tag is not outstanding.
pub fn check_outstanding(state: &State, tag: u8) -> Due {
    refuse_if(!state.is_outstanding(u32::from(tag)), NOT_OUTSTANDING)
}

/// 8: a phase is open.
pub fn check_no_phase(state: &State) -> Due {
    refuse_if(state.phase != 0, PHASE_OPEN)
}
