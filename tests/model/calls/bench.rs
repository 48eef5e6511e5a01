//! What stays between two lines of a script, and what each command does to it.

use super::command::{Command, Part};
use super::{pages, shown, MEDIUM, REPLY};
use crate::device::command::Command as DeviceCommand;
use crate::device::host::Verdict;
use crate::device::state::{REPLY_ROOM, SECTOR};
use crate::device::{clauses, events, host, Answer, State};
use crate::frames;
use std::array;

/// Every byte of the reply buffer before a call.
pub const BEFORE: u8 = 0xEE;

#[derive(Clone)]
pub struct Bench {
    pub state: State,
    pub medium: Vec<u8>,
    /// What a `lend` line says, from then on.
    lent: Option<(usize, usize)>,
}

impl Bench {
    pub fn new() -> Bench {
        Bench { state: State::default(), medium: vec![0; MEDIUM], lent: None }
    }

    /// A `lend` line stood before, and the capacity does not decide any more.
    pub fn is_told_what_to_lend(&self) -> bool {
        self.lent.is_some()
    }

    /// The lines that a command prints.
    pub fn run(&mut self, command: &Command) -> Vec<String> {
        match command {
            Command::Lend { medium, reply } => self.lent = Some((*medium, *reply)),
            Command::Fill(first) => self.fill(*first),
            Command::Set(part) => set(&mut self.state, part),
            Command::Show => return shown::state(&self.state),
            _ => return vec![self.line(command)],
        }
        vec![]
    }

    /// The line of a command that prints one.
    fn line(&mut self, command: &Command) -> String {
        match command {
            Command::Medium { at, size } => shown::hex(&self.medium[*at..*at + *size]),
            Command::Counter(number) => shown::counter(self.counter(*number)),
            Command::Count => self.count(),
            Command::Judge(frame) => self.judge(frame),
            Command::Read(reading) => pages::read(reading),
            Command::Write { room, what } => pages::write(*room, what),
            _ => self.call(command),
        }
    }

    fn counter(&self, number: u16) -> Result<Option<u64>, u8> {
        events::counter(&self.state, number).map(|value| value.map(u64::from))
    }

    fn fill(&mut self, first: u8) {
        let round: [u8; 251] = array::from_fn(|i| ((usize::from(first) + i) % 251) as u8);
        for part in self.medium.chunks_mut(251) {
            part.copy_from_slice(&round[..part.len()]);
        }
    }

    /// How much of medium and reply buffer a call is lent.
    fn lent(&self) -> (usize, usize) {
        let whole = (SECTOR as u64 * u64::from(self.state.capacity)).min(MEDIUM as u64);
        self.lent.unwrap_or((whole as usize, REPLY_ROOM))
    }

    /// A call of the device: its line, and the state that it hands back.
    fn call(&mut self, command: &Command) -> String {
        let (medium, room) = self.lent();
        let mut reply = vec![BEFORE; REPLY];
        let answer = self.answer(command, medium, &mut reply[..room]);
        self.state = answer.state;
        shown::called(answer.refusal, &reply[..answer.length], &reply[answer.length..])
    }

    fn answer(&mut self, command: &Command, medium: usize, reply: &mut [u8]) -> Answer {
        let (state, medium) = (&self.state, &mut self.medium[..medium]);
        match command {
            Command::Power { depth, capacity, mask } => events::power_on(*depth, *capacity, *mask),
            Command::Frame(bytes) => host::host_frame(state, bytes, medium, reply),
            Command::Open(tag) => events::open(state, *tag, reply),
            Command::Send => events::send(state, medium, reply),
            Command::Finish(set) => events::finish(state, *set, reply),
            Command::MediaError { tag, error, sector } => {
                events::media_error(state, *tag, *error, *sector, reply)
            }
            Command::Link(row) => events::link_event(state, *row),
            Command::Tally(amounts) => events::link_tally(state, amounts),
            Command::Comreset => events::comreset(state, reply),
            _ => unreachable!("no call"),
        }
    }

    /// How many commands are outstanding.
    fn count(&self) -> String {
        if clauses::contradicts(&self.state) {
            return "refused 1".to_string();
        }
        self.state.tags().count().to_string()
    }

    /// What a queued command comes to; of medium and reply buffer nothing is asked.
    fn judge(&self, frame: &[u8]) -> String {
        let command = DeviceCommand::of(&frames::read(frame).expect("a host register"));
        if clauses::contradicts(&self.state) {
            return "refused 1".to_string();
        }
        if self.state.held || self.state.phase != 0 {
            return "refused 5".to_string();
        }
        match host::judge_queued(&self.state, &command) {
            Verdict::Good => "good".to_string(),
            Verdict::Bad(error) => format!("bad {error:x}"),
            Verdict::Halting(error) => format!("halt {error:x}"),
        }
    }
}

/// Changes a part of the state, whatever comes of it.
fn set(state: &mut State, part: &Part) {
    match part {
        Part::Depth(depth) => state.depth = *depth,
        Part::Capacity(capacity) => state.capacity = *capacity,
        Part::Mask(mask) => state.mask = *mask,
        Part::Outstanding(set) => state.outstanding = *set,
        Part::Phase(phase) => state.phase = *phase,
        Part::Halted(halted) => state.halted = *halted,
        Part::Held(held) => state.held = *held,
        Part::Value(row, value) => state.counters[*row] = *value,
        Part::Entry(tag, entry) => state.entries[*tag] = *entry,
        Part::Record(record) => state.record = *record,
    }
}
