//! Random event files and random scripts of calls through the program under
//! test and through the model. A file of an odd seed comes by a pipe, in small
//! pieces, which the pipe may join.

use crate::calls;
use crate::program::{self, line::Style};
use crate::random::{self, File as Drawn};
use crate::random_calls;
use std::fs::{self, File};
use std::io::{self, Write};
use std::path::{Path, PathBuf};
use std::process::{Command, Output, Stdio};
use std::thread;

/// A program under test: its command, and what it should print for a file, with its exit status.
pub struct Tested {
    words: Vec<String>,
    expected: fn(&[u8]) -> (Vec<u8>, i32),
}

/// What is printed, and the exit status in a line of its own.
fn with_status((mut lines, status): (Vec<u8>, i32)) -> Vec<u8> {
    lines.extend_from_slice(format!("status {}\n", status).as_bytes());
    lines
}

impl Tested {
    /// `command` is a path, with arguments behind blanks if it needs any.
    fn new(command: &str, expected: fn(&[u8]) -> (Vec<u8>, i32)) -> Tested {
        Tested { words: command.split_whitespace().map(str::to_string).collect(), expected }
    }

    /// The program that traces events.
    pub fn trace(command: &str) -> Tested {
        Tested::new(command, |events| program::text(events, Style::Trace))
    }

    /// The event program.
    pub fn run(command: &str) -> Tested {
        Tested::new(command, |events| program::text(events, Style::Run))
    }

    /// The program that runs scripts of calls.
    pub fn calls(command: &str) -> Tested {
        Tested::new(command, |script| (calls::text(script), 0))
    }

    /// The program, without its arguments.
    pub fn name(&self) -> &str {
        &self.words[0]
    }

    /// What it prints for a file, and its exit status in a last line; or why nothing came of it.
    pub fn lines(&self, seed: u64, file: &Path) -> Result<Vec<u8>, String> {
        let done = match seed % 2 {
            0 => self.fed_by_file(file),
            _ => self.fed_by_pipe(file, 1 + seed as usize % 61),
        };
        let done = done.map_err(|e| format!("{}: {}", self.words[0], e))?;
        match done.status.code() {
            Some(status) => Ok(with_status((done.stdout, status))),
            None => Err(format!("{}: {}", self.words[0], done.status)),
        }
    }

    fn command(&self) -> Command {
        let mut command = Command::new(&self.words[0]);
        command.args(&self.words[1..]).stderr(Stdio::inherit());
        command
    }

    fn fed_by_file(&self, file: &Path) -> io::Result<Output> {
        self.command().stdin(File::open(file)?).output()
    }

    /// In pieces of `size` bytes, so that many events and lines come torn apart.
    fn fed_by_pipe(&self, file: &Path, size: usize) -> io::Result<Output> {
        let bytes = fs::read(file)?;
        let mut child = self.command().stdin(Stdio::piped()).stdout(Stdio::piped()).spawn()?;
        let mut pipe = child.stdin.take().expect("a pipe");
        // A program that has stopped reads no more: what is left then needs no reader.
        let feeder =
            thread::spawn(move || bytes.chunks(size).all(|piece| pipe.write_all(piece).is_ok()));
        let done = child.wait_with_output();
        feeder.join().expect("the feeder");
        done
    }
}

/// What is drawn from a seed: its name, and that of what it holds.
pub struct Kind {
    draw: fn(u64) -> Drawn,
    name: &'static str,
    holds: &'static str,
}

pub const EVENTS: Kind =
    Kind { draw: random::file, name: "events", holds: "events behind the settings" };

pub const CALLS: Kind = Kind {
    draw: |seed| random_calls::script(seed, random_calls::how_many(seed)),
    name: "calls",
    holds: "calls",
};

/// The seeds from `from` on, `count` of them. True if no file differs.
pub fn run(
    kind: &Kind,
    count: u64,
    from: u64,
    tested: &[Tested],
    directory: &Path,
) -> Result<bool, String> {
    fs::create_dir_all(directory).map_err(|e| e.to_string())?;
    let (mut events, mut taken, mut mismatches) = (0, 0, 0);
    for seed in from..from + count {
        let file = (kind.draw)(seed);
        events += file.events;
        taken += file.taken;
        let path = directory.join(format!("{}.{}", seed, kind.name));
        if agrees(seed, &file.bytes, tested, &path)? {
            fs::remove_file(&path).map_err(|e| e.to_string())?;
        } else {
            mismatches += 1;
        }
    }
    println!("{} {}, {} of them taken", events, kind.holds, taken);
    match mismatches {
        0 => println!("{} seeds of {}, no mismatch", count, kind.name),
        _ => println!("{} seeds of {}, {} with a mismatch", count, kind.name, mismatches),
    }
    Ok(mismatches == 0)
}

fn agrees(seed: u64, bytes: &[u8], tested: &[Tested], path: &PathBuf) -> Result<bool, String> {
    fs::write(path, bytes).map_err(|e| e.to_string())?;
    let mut good = true;
    for program in tested {
        let expected = with_status((program.expected)(bytes));
        let fault = match program.lines(seed, path) {
            Ok(lines) => difference(["model", "program"], &expected, &lines),
            Err(fault) => Some(fault),
        };
        if let Some(fault) = fault {
            println!("seed {}: {}: {}", seed, program.name(), fault);
            println!("  kept: {}", path.display());
            good = false;
        }
    }
    Ok(good)
}

/// The first line that differs, of both, each behind its name.
pub fn difference(names: [&str; 2], expected: &[u8], lines: &[u8]) -> Option<String> {
    if expected == lines {
        return None;
    }
    let (mut ours, mut theirs) = (expected.split(|&b| b == b'\n'), lines.split(|&b| b == b'\n'));
    loop {
        let (our, their) = (ours.next(), theirs.next());
        if our != their {
            let [one, other] = names;
            return Some(format!("\n  {:7} {}\n  {:7} {}", one, shown(our), other, shown(their)));
        }
    }
}

/// A line, cut where a screen ends.
fn shown(line: Option<&[u8]>) -> String {
    const WIDTH: usize = 200;
    let line = line.map_or("(no line)".into(), String::from_utf8_lossy);
    line.chars().take(WIDTH).collect()
}
