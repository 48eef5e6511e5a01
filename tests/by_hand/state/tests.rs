//! Each way in which a state can contradict itself is found; and a sound state, from which each is one change away, is not.

use super::{Record, Settings, State};
use crate::echo::Echo;
use crate::table::Entry;

type Change = fn(&mut Settings, &mut State);

/// A command of four sectors.
fn command(tag: u8, first: u32, moved: u32) -> Entry {
    let echo = Echo { low: first | 0x4000_0000, high: 0, tail: u16::from(tag) << 3 };
    Entry { first, count: 4, moved, write: false, features: 4, echo }
}

/// Tag 5 has moved all; tag 6 is in its phase, and in the middle of it.
fn sound() -> (Settings, State) {
    let mut state = State::idle();
    state.outstanding = 1 << 5 | 1 << 6;
    state.phase = Some(6);
    state.table.put(5, command(5, 8, 2048));
    state.table.put(6, command(6, 60, 512));
    (Settings { depth: 7, capacity: 64, mask: 0x0203 }, state)
}

/// Tag 6 in another shape.
fn six(state: &mut State, change: impl FnOnce(&mut Entry)) {
    let mut entry = state.table.entry(6);
    change(&mut entry);
    state.table.clear(1 << 6);
    state.table.put(6, entry);
}

/// Nothing outstanding.
fn given_up(state: &mut State) {
    state.drop_all();
}

const CHANGES: &[(&str, Change)] = &[
    ("depth 0", |settings, _| settings.depth = 0),
    ("depth 33", |settings, _| settings.depth = 33),
    ("capacity 0", |settings, _| settings.capacity = 0),
    ("capacity 65,537", |settings, _| settings.capacity = 65_537),
    ("row 0 not kept", |settings, _| settings.mask = 0x0202),
    ("row 9 not kept", |settings, _| settings.mask = 0x0003),
    ("a tag at the depth", |settings, _| settings.depth = 6),
    ("a range past the capacity", |settings, _| settings.capacity = 63),
    ("a range longer than the capacity", |settings, state| {
        given_up(state);
        settings.capacity = 3;
        state.outstanding = 1;
        state.table.put(0, command(0, 0, 0));
    }),
    ("a count of 0", |_, state| six(state, |entry| entry.count = 0)),
    ("other bytes for the count", |_, state| six(state, |entry| entry.features = 5)),
    ("other bytes for the tag", |_, state| six(state, |entry| entry.echo.tail = 5 << 3)),
    ("other low bytes for the sector", |_, state| six(state, |entry| entry.echo.low ^= 1)),
    ("other high bytes for the sector", |_, state| six(state, |entry| entry.echo.high = 1)),
    ("moved more than all", |_, state| six(state, |entry| entry.moved = 2052)),
    ("moved no multiple of 4", |_, state| six(state, |entry| entry.moved = 510)),
    ("all moved in an open phase", |_, state| six(state, |entry| entry.moved = 2048)),
    ("partly moved in no phase", |_, state| state.phase = None),
    ("partly moved in another's phase", |_, state| state.phase = Some(5)),
    ("a phase of an idle tag", |_, state| state.phase = Some(4)),
    ("a phase of no tag", |_, state| state.phase = Some(32)),
    ("halted with tags outstanding", |_, state| state.halted = true),
    ("held with tags outstanding", |_, state| state.held = true),
    ("halted and held", |_, state| {
        given_up(state);
        (state.halted, state.held) = (true, true);
    }),
    ("held with a record", |_, state| {
        given_up(state);
        state.held = true;
        state.record.set = true;
    }),
    ("a record with tag 32", |_, state| state.record = Record { set: true, tag: 32, ..Record::default() }),
    ("a tag under NQ", |_, state| state.record = Record { set: true, nq: true, tag: 1, ..Record::default() }),
    ("a blank record with NQ", |_, state| state.record.nq = true),
    ("a blank record with a tag", |_, state| state.record.tag = 1),
    ("a blank record with an error", |_, state| state.record.error = 1),
    ("a blank record with bytes", |_, state| state.record.echo.low = 1),
    ("an idle tag with a first sector", |_, state| idle(state, |entry| entry.first = 1)),
    ("an idle tag with a count", |_, state| idle(state, |entry| entry.count = 1)),
    ("an idle tag that has moved", |_, state| idle(state, |entry| entry.moved = 4)),
    ("an idle tag that is a write", |_, state| idle(state, |entry| entry.write = true)),
    ("an idle tag with features", |_, state| idle(state, |entry| entry.features = 1)),
    ("an idle tag with a device byte", |_, state| idle(state, |entry| entry.echo.low = 1 << 30)),
    ("an idle tag with high bytes", |_, state| idle(state, |entry| entry.echo.high = 1)),
    ("an idle tag with a count byte", |_, state| idle(state, |entry| entry.echo.tail = 1)),
    ("a row that is not kept", |_, state| state.counters[2] = 1),
];

/// Tag 31 idle, and not zero.
fn idle(state: &mut State, change: impl FnOnce(&mut Entry)) {
    let mut entry = state.table.entry(31);
    change(&mut entry);
    state.table.put(31, entry);
}

#[test]
fn a_sound_state_is_taken() {
    let (settings, mut state) = sound();
    state.counters[1] = 1;
    assert!(!state.contradicts(&settings));
    given_up(&mut state);
    assert!(!state.contradicts(&settings));
}

#[test]
fn each_contradiction_is_found() {
    for (name, change) in CHANGES {
        let (mut settings, mut state) = sound();
        change(&mut settings, &mut state);
        assert!(state.contradicts(&settings), "{name}");
    }
}
