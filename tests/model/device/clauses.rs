//! When a state contradicts itself: the clauses of the list at the end of
//! "What the device turns down", each by itself. One that holds is enough.

use super::state::{Entry, Record, State, DWORD, ROW_001H, ROW_00AH, TAGS, TOP_CAPACITY};

/// A clause over the whole state, and its name.
pub type Clause = (&'static str, fn(&State) -> bool);

/// A clause over one outstanding tag with its entry, and its name.
type EntryClause = (&'static str, fn(&State, u32, &Entry) -> bool);

const CLAUSES: [Clause; 13] = [
    ("settings", settings_out_of_bounds),
    ("open tag not outstanding", open_not_outstanding),
    ("open tag all moved", open_all_moved),
    ("halted with something outstanding", halted_outstanding),
    ("held with something outstanding", held_outstanding),
    ("halted and held", halted_and_held),
    ("held with a record", held_with_record),
    ("record tag above 31", record_tag_above_31),
    ("record NQ with a tag", record_tag_under_nq),
    ("blank record not zero", blank_record_not_zero),
    ("idle entry not zero", idle_entry_not_zero),
    ("idle entry at or above the depth not zero", idle_entry_above_depth_not_zero),
    ("unkept row not zero", unkept_row_not_zero),
];

const ENTRY_CLAUSES: [EntryClause; 9] = [
    ("tag at or above the depth", tag_above_depth),
    ("range past capacity", range_past_capacity),
    ("count 0", count_zero),
    ("bytes name another tag", names_another_tag),
    ("bytes name another first sector", names_another_first),
    ("bytes name another count", names_another_count),
    ("moved above count", moved_above_count),
    ("moved not a multiple of 4", moved_not_in_dwords),
    ("moved between, no phase of its own", moved_between),
];

/// Refusal 1.
pub fn contradicts(s: &State) -> bool {
    let entry_faulty = |tag| ENTRY_CLAUSES.iter().any(|(_, holds)| holds(s, tag, s.entry(tag)));
    CLAUSES.iter().any(|(_, holds)| holds(s)) || s.tags().any(entry_faulty)
}

/// The names of all clauses.
pub fn all_names() -> Vec<&'static str> {
    let of_state = CLAUSES.iter().map(|&(name, _)| name);
    of_state.chain(ENTRY_CLAUSES.iter().map(|&(name, _)| name)).collect()
}

/// The names of all clauses that hold.
pub fn names(s: &State) -> Vec<&'static str> {
    let of_state = CLAUSES.iter().filter(|(_, holds)| holds(s)).map(|&(name, _)| name);
    let of_entries = ENTRY_CLAUSES
        .iter()
        .filter(|(_, holds)| s.tags().any(|tag| holds(s, tag, s.entry(tag))))
        .map(|&(name, _)| name);
    of_state.chain(of_entries).collect()
}

/// Depth 1 to 32, capacity 1 to 65,536, rows 0 and 9 always kept.
pub fn settings_out_of_bounds(s: &State) -> bool {
    let depth = (1..=TAGS).contains(&s.depth);
    let capacity = (1..=TOP_CAPACITY).contains(&s.capacity);
    let rows = s.keeps(ROW_001H) && s.keeps(ROW_00AH);
    !(depth && capacity && rows)
}

fn tag_above_depth(s: &State, tag: u32, _: &Entry) -> bool {
    tag >= s.depth
}

fn range_past_capacity(s: &State, _: u32, entry: &Entry) -> bool {
    entry.end() > u64::from(s.capacity)
}

fn count_zero(_: &State, _: u32, entry: &Entry) -> bool {
    entry.count == 0
}

fn names_another_tag(_: &State, tag: u32, entry: &Entry) -> bool {
    entry.echo.tag() != tag
}

/// All 48 bits of the LBA count.
fn names_another_first(_: &State, _: u32, entry: &Entry) -> bool {
    entry.echo.lba() != u64::from(entry.first)
}

fn names_another_count(_: &State, _: u32, entry: &Entry) -> bool {
    entry.named_sectors() != entry.count
}

fn moved_above_count(_: &State, _: u32, entry: &Entry) -> bool {
    u64::from(entry.moved) > entry.bytes()
}

fn moved_not_in_dwords(_: &State, _: u32, entry: &Entry) -> bool {
    entry.moved % DWORD != 0
}

fn moved_between(s: &State, tag: u32, entry: &Entry) -> bool {
    let between = entry.moved != 0 && !entry.all_moved();
    between && s.open_tag() != Some(tag)
}

fn open_not_outstanding(s: &State) -> bool {
    s.open_tag().map_or(false, |tag| !s.is_outstanding(tag))
}

fn open_all_moved(s: &State) -> bool {
    s.open_tag().map_or(false, |tag| s.is_outstanding(tag) && s.entry(tag).all_moved())
}

fn halted_outstanding(s: &State) -> bool {
    s.halted && s.outstanding != 0
}

fn held_outstanding(s: &State) -> bool {
    s.held && s.outstanding != 0
}

fn halted_and_held(s: &State) -> bool {
    s.halted && s.held
}

fn held_with_record(s: &State) -> bool {
    s.held && s.record.set
}

fn record_tag_above_31(s: &State) -> bool {
    s.record.set && s.record.tag > 31
}

fn record_tag_under_nq(s: &State) -> bool {
    s.record.set && s.record.nq && s.record.tag != 0
}

fn blank_record_not_zero(s: &State) -> bool {
    !s.record.set && s.record != Record::default()
}

/// Some idle tag of these has an entry that is not all zeros.
fn some_idle_not_zero(s: &State, these: impl Fn(u32) -> bool) -> bool {
    (0..TAGS)
        .filter(|&tag| these(tag) && !s.is_outstanding(tag))
        .any(|tag| *s.entry(tag) != Entry::default())
}

fn idle_entry_not_zero(s: &State) -> bool {
    some_idle_not_zero(s, |tag| tag < s.depth)
}

fn idle_entry_above_depth_not_zero(s: &State) -> bool {
    some_idle_not_zero(s, |tag| tag >= s.depth)
}

fn unkept_row_not_zero(s: &State) -> bool {
    (0..16).any(|row| !s.keeps(row) && s.counters[row] != 0)
}
