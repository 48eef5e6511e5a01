//! Random scripts of calls by seed. The generator runs the model alongside, so that most calls are taken; states that
//! contradict themselves, each by one clause alone, short buffers, and lines that mean nothing are mixed in.

mod clause;
mod draw;
mod pages;
mod texts;

use calls::bench::Bench;
use calls::command;
use device::clauses;
use random::{File, Random};

/// A script while it is drawn, and what it has come to.
struct Script {
    random: Random,
    bench: Bench,
    text: Vec<u8>,
    calls: u64,
    taken: u64,
}

/// How many lines a script is drawn with; one line that is drawn may come to several.
pub fn how_many(seed: u64) -> u32 {
    match seed % 50 {
        0 => 2_000,
        _ => 20 + (seed * 7 % 180) as u32,
    }
}

/// The script of a seed.
pub fn script(seed: u64, lines: u32) -> File {
    let random = Random::seeded(seed ^ 0x5C1);
    let mut script = Script { random, bench: Bench::new(), text: Vec::new(), calls: 0, taken: 0 };
    if !script.random.percent(4) {
        draw::power(&mut script);
    }
    for _ in 0..lines {
        draw::next(&mut script);
    }
    script.line("show");
    if script.random.percent(10) {
        // a last line need not end
        script.text.pop();
    }
    File { bytes: script.text, events: script.calls, taken: script.taken }
}

impl Script {
    /// A line as it is meant; what it does is done, what it looks like is drawn.
    fn line(&mut self, line: &str) {
        let command = command::parse(line.as_bytes()).expect("a line").expect("a command");
        let answers = self.bench.run(&command);
        if command.is_call() {
            self.calls += 1;
            self.taken += u64::from(answers.iter().all(|answer| answer.starts_with("0 ")));
        }
        let dressed = texts::dressed(&mut self.random, line);
        self.put(dressed.as_bytes());
    }

    /// A line that the model is not asked about.
    fn put(&mut self, line: &[u8]) {
        self.text.extend(line);
        self.text.push(b'\n');
    }

    fn contradicts(&self) -> bool {
        clauses::contradicts(&self.bench.state)
    }
}
