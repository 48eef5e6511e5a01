//! An independent model of the frame and log-page layer and of the device.
//! Standard library only: rustc -O tests/model/main.rs -o X
//!
//!   --examples                 checks the eleven examples and prints them
//!   --random SEED              the random event file of a seed
//!   --compare N FROM T R       random files through the programs T (trace) and
//!                              R (run; empty: not compared) and the model
//!   --contents N FROM T R C    pairs of random event files through T and R, and
//!                              of scripts through C, that differ in contents
//!   --random-calls SEED LINES  the random script of calls of a seed
//!   --compare-calls N FROM C   random scripts through the program C and the model
//!   --run, --trace             the event program: events in, lines out; a
//!                              trace shows the bytes of each reply
//!   --calls FILE               what the script of calls prints (`-`: from the
//!                              standard input)
//!   --check-calls FILE..       the lines of scripts that print something else
//!                              than what stands behind `->`, or are at fault
//!   --hourly FILE COUNTER..    the hourly table of the samples of a file, or why
//!                              there is none
//!   --hourly-samples SEED N    samples of a seed for it
//!   --hourly-faults SEED N     the same with faults

mod calls;
mod compare;
mod contents;
mod device;
mod examples;
mod fields;
mod frames;
mod hourly;
mod identity;
mod pages;
mod program;
mod random;
mod random_calls;

use compare::Tested;
use program::line::Style;
use std::fs::File;
use std::io::{self, BufRead, BufReader, BufWriter, Write};
use std::path::Path;
use std::process::exit;

const USAGE: &str = "usage: model --examples | --run | --trace | --calls FILE | --check-calls FILE.. | \
                     --random SEED | --random-calls SEED LINES | --hourly FILE COUNTER.. | --hourly-samples SEED N | --hourly-faults SEED N";

fn main() {
    let arguments: Vec<String> = std::env::args().skip(1).collect();
    let output = match arguments.iter().map(|a| a.as_str()).collect::<Vec<_>>()[..] {
        ["--examples"] => return run_examples(),
        ["--random", seed] => random::file(number(seed)).bytes,
        ["--compare", count, from, trace, run] => {
            return compare_with(number(count), number(from), trace, run)
        }
        ["--contents", count, from, trace, run, calls] => {
            let events = [Tested::trace(trace), Tested::run(run)];
            return hide_contents(number(count), number(from), &events, &[Tested::calls(calls)]);
        }
        ["--calls", script] => return run_calls(script),
        ["--check-calls", ref scripts @ ..] => return check_calls(scripts),
        ["--random-calls", seed, lines] => {
            random_calls::script(number(seed), number(lines) as u32).bytes
        }
        ["--compare-calls", count, from, program] => {
            let tested = [Tested::calls(program)];
            return compare_drawn(&compare::CALLS, number(count), number(from), &tested);
        }
        ["--hourly", file, ref counters @ ..] => return tell_table(file, counters),
        ["--hourly-samples", seed, count] => hourly::samples(number(seed), number(count)).into_bytes(),
        ["--hourly-faults", seed, count] => hourly::faults(number(seed), number(count)),
        ["--run"] => return run_events(Style::Run),
        ["--trace"] => return run_events(Style::Trace),
        _ => fail(USAGE),
    };
    if let Err(error) = io::stdout().write_all(&output) {
        fail(&format!("model: cannot write: {}", error));
    }
}

fn number(text: &str) -> u64 {
    text.parse().unwrap_or_else(|_| fail(USAGE))
}

/// `run` may be empty: then only the trace is compared.
fn compare_with(count: u64, from: u64, trace: &str, run: &str) {
    let mut tested = vec![Tested::trace(trace)];
    if !run.is_empty() {
        tested.push(Tested::run(run));
    }
    compare_drawn(&compare::EVENTS, count, from, &tested);
}

/// Status 1 if a file is told apart; it is kept.
fn compare_drawn(kind: &compare::Kind, count: u64, from: u64, tested: &[Tested]) {
    match compare::run(kind, count, from, tested, Path::new("target/compare")) {
        Ok(true) => {}
        Ok(false) => exit(1),
        Err(fault) => fail(&format!("model: {}", fault)),
    }
}

/// Status 1 if contents show, or if nothing could have shown it.
fn hide_contents(count: u64, from: u64, events: &[Tested], calls: &[Tested]) {
    let found = contents::run(count, from, events, calls, Path::new("target/contents"))
        .unwrap_or_else(|fault| fail(&format!("model: {}", fault)));
    println!("{} of {} inputs with a changed head or tag told apart", found.told_apart, found.changed);
    println!("{} pairs print other contents, {} anything else", found.other_contents, found.mismatches);
    if found.mismatches != 0 || found.other_contents == 0 || found.told_apart == 0 {
        exit(1);
    }
}

/// The table, and what is said of it, with the status of the program.
fn tell_table(file: &str, counters: &[&str]) {
    let read = std::fs::read(file).unwrap_or_else(|e| fail(&format!("model: {}: {}", file, e)));
    let told = hourly::told(file, &read, counters);
    if let Err(error) = io::stdout().write_all(told.text.as_bytes()) {
        fail(&format!("model: cannot write: {}", error));
    }
    eprint!("{}", told.said);
    exit(told.status)
}

/// Input and output are buffered; no input is held whole. The exit status tells how the run ended.
fn run_events(style: Style) {
    const ROOM: usize = 1 << 16;
    let mut input = BufReader::with_capacity(ROOM, io::stdin().lock());
    let mut output = BufWriter::with_capacity(ROOM, io::stdout().lock());
    let done = program::run(&mut input, &mut output, style);
    match done.and_then(|end| output.flush().map(|()| end)) {
        Ok(end) => exit(end as i32),
        Err(error) => fail(&format!("model: cannot write: {}", error)),
    }
}

/// The script of a file, or of the standard input.
fn run_calls(script: &str) {
    let mut input: Box<dyn BufRead> = match script {
        "-" => Box::new(io::stdin().lock()),
        path => match File::open(path) {
            Ok(file) => Box::new(BufReader::new(file)),
            Err(error) => fail(&format!("model: {}: {}", path, error)),
        },
    };
    let mut output = BufWriter::new(io::stdout().lock());
    if let Err(error) = calls::run(&mut input, &mut output).and_then(|_| output.flush()) {
        fail(&format!("model: cannot write: {}", error));
    }
}

/// Each script by itself; status 1 if a line differs or is at fault, 2 if one cannot be read or nothing is asked for.
fn check_calls(scripts: &[&str]) {
    let (mut asked, mut differing, mut faults) = (0, 0, 0);
    for script in scripts {
        match calls::check::file(script) {
            Ok(found) => {
                asked += found.asked;
                differing += found.differing;
                faults += found.faults;
            }
            Err(error) => fail(&format!("model: {}: {}", script, error)),
        }
    }
    if asked == 0 {
        fail("model: no line says what it is to print");
    }
    let told = if faults == 0 { String::new() } else { format!(", {faults} faults") };
    println!("{asked} lines asked for, {differing} differ{told}");
    if differing != 0 || faults != 0 {
        exit(1);
    }
}

fn fail(message: &str) -> ! {
    eprintln!("{}", message);
    exit(2)
}

fn run_examples() {
    let results = examples::all();
    for (text, good) in &results {
        println!("{}: {}", text, if *good { "ok" } else { "WRONG" });
    }
    if results.iter().any(|(_, good)| !good) {
        exit(1);
    }
}
