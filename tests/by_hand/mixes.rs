//! Event files to measure on. The same kind, number and further number make the same file on every machine. What each has is
//! counted on standard error, by kind of event.
//!
//!     mixed        32 tags in use, reads and writes of 16 sectors by turns of chance
//!     small        the same with commands of a sector or a few, finishes of one tag, and link events
//!     errors       media errors, commands that halt, log pages, resets, and events that are refused
//!     command, open, send, data, finish, media, link, comreset, log
//!                  mostly, or as far as it can be, that one kind of event
//!     tags T       T tags outstanding, commands of a sector
//!     depth D      a queue of D, and the same
//!     capacity C   a medium of C sectors, and the same

mod frames;
mod kinds;
mod life;

use crate::input::kind;
use crate::play::Bench;
use std::io::{self, BufWriter, Stdout, Write};

const DEPTH: u8 = 32;
const CAPACITY: u32 = 64;
const ROWS: u16 = 0xFFFF;

/// Why no more events are made.
enum Stop {
    Enough,
    Failed(io::Error),
}

type Made = Result<(), Stop>;

/// An event file in the making; a device plays along, and says what may come next.
struct Maker {
    out: BufWriter<Stdout>,
    bench: Bench,
    /// Events that are still to come.
    left: u32,
    seed: u64,
    counts: Counts,
}

impl Maker {
    fn start(depth: u8, capacity: u32, events: u32) -> Option<Maker> {
        let record = frames::settings(depth, capacity, ROWS);
        let bench = Bench::start(&record, false).ok()?;
        let out = BufWriter::with_capacity(1 << 16, io::stdout());
        let mut maker = Maker { out, bench, left: events, seed: 0x5EED, counts: Counts::default() };
        maker.out.write_all(&record).ok()?;
        maker.left = maker.left.saturating_sub(1);
        Some(maker)
    }

    /// One more event.
    fn event(&mut self, event: &[u8]) -> Made {
        self.left = self.left.checked_sub(1).ok_or(Stop::Enough)?;
        self.out.write_all(event).map_err(Stop::Failed)?;
        self.counts.add(event);
        self.bench.play(event);
        Ok(())
    }

    /// A number below the bound (xorshift).
    fn below(&mut self, bound: u32) -> u32 {
        self.seed ^= self.seed << 13;
        self.seed ^= self.seed >> 7;
        self.seed ^= self.seed << 17;
        ((self.seed >> 32) as u32) % bound
    }

    /// True one time in so many.
    fn once_in(&mut self, times: u32) -> bool {
        self.below(times) == 0
    }

    fn outstanding(&self) -> u32 {
        self.bench.device.state.outstanding
    }
}

/// How many events there are of each kind.
#[derive(Default)]
struct Counts([u32; 10]);

impl Counts {
    const NAMES: [&'static str; 10] =
        ["command", "open", "send", "data", "finish", "media", "link", "comreset", "log", "other"];

    fn add(&mut self, event: &[u8]) {
        let place = match event {
            [kind::REGISTER, 0x80, 0x60 | 0x61, ..] => 0,
            [kind::OPEN, ..] => 1,
            [kind::SEND] => 2,
            [kind::HOST_DATA, ..] => 3,
            [kind::FINISH, ..] => 4,
            [kind::MEDIA_ERROR, ..] => 5,
            [kind::LINK_EVENT, ..] => 6,
            [kind::COMRESET] => 7,
            [kind::REGISTER, 0x80, 0x2F, ..] => 8,
            _ => 9,
        };
        self.0[place] += 1;
    }
}

/// Writes the file of a kind to standard output; none if the words name none.
pub fn make(kind: &str, numbers: &[u32]) -> Option<io::Result<()>> {
    let (events, further) = match *numbers {
        [events] => (events, None),
        [events, further] => (events, Some(further)),
        _ => return None,
    };
    let depth = if kind == "depth" { u8::try_from(further?).ok()? } else { DEPTH };
    let capacity = if kind == "capacity" { further? } else { CAPACITY };
    let tags = if kind == "tags" { u8::try_from(further?).ok()? } else { 1 };
    let maker = Maker::start(depth, capacity, events)?;
    let step: fn(&mut Maker) -> Made = match kind {
        "mixed" => Maker::mixed,
        "small" => Maker::small,
        "errors" => Maker::errors,
        "tags" | "depth" | "capacity" => return Some(maker.end(|maker| maker.steady(tags))),
        _ => kinds::step(kind)?,
    };
    Some(maker.end(|maker| loop {
        step(maker)?;
    }))
}

impl Maker {
    /// Makes events until there are enough, and tells how many there are of each kind.
    fn end(mut self, events: impl FnOnce(&mut Maker) -> Made) -> io::Result<()> {
        if let Err(Stop::Failed(error)) = events(&mut self) {
            return Err(error);
        }
        self.out.flush()?;
        let counts: Vec<String> =
            Counts::NAMES.iter().zip(self.counts.0).map(|(name, count)| format!("{name}={count}")).collect();
        eprintln!("{}", counts.join(" "));
        Ok(())
    }
}
