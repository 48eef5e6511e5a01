//! An independent model of the device, written from the rules alone. It uses
//! the model's own frame and page writers for what the device sends.

pub mod clauses;
pub mod command;
pub mod events;
pub mod host;
pub mod refusals;
pub mod replies;
pub mod state;

pub use self::state::{Echo, Entry, Record, State};

use crate::frames::Frame;

/// What a call hands back: the new state, the refusal's number (0 = taken) and
/// how many bytes of the reply buffer it wrote.
pub struct Answer {
    pub state: State,
    pub refusal: u8,
    pub length: usize,
}

/// A refusal hands back the very state that came in, and no frames.
fn turned_down(state: &State, refusal: u8) -> Answer {
    Answer { state: state.clone(), refusal, length: 0 }
}

/// A taken call: its new state, and its replies behind one another.
fn taken(state: State, frames: &[Frame], reply: &mut [u8]) -> Answer {
    let length = replies::send(frames, reply);
    Answer { state, refusal: 0, length }
}
