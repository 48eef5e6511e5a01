//! The lines that the event program prints.

use super::machine::Machine;
use std::io::{self, Write};

/// With or without the bytes of each reply.
#[derive(Clone, Copy, PartialEq)]
pub enum Style {
    Run,
    Trace,
}

pub fn stop(output: &mut impl Write) -> io::Result<()> {
    output.write_all(b"stop\n")
}

/// The line of a taken settings record.
pub fn powered(output: &mut impl Write) -> io::Result<()> {
    output.write_all(b"0 0 00000000\n")
}

pub fn refused_settings(output: &mut impl Write) -> io::Result<()> {
    output.write_all(b"0 1 00000000\n")
}

/// Number, refusal, outstanding tags, then type:length of each reply.
pub fn answered(
    output: &mut impl Write,
    style: Style,
    number: u64,
    refusal: u8,
    machine: &Machine,
) -> io::Result<()> {
    write_decimal(output, number)?;
    output.write_all(b" ")?;
    write_decimal(output, refusal.into())?;
    output.write_all(b" ")?;
    write_digits(output, UPPER, &machine.state.outstanding.to_be_bytes())?;
    for frame in machine.replies() {
        output.write_all(b" ")?;
        write_digits(output, UPPER, &frame[..1])?;
        output.write_all(b":")?;
        write_decimal(output, frame.len() as u64)?;
        if style == Style::Trace {
            output.write_all(b"=")?;
            write_digits(output, LOWER, frame)?;
        }
    }
    output.write_all(b"\n")
}

fn write_decimal(output: &mut impl Write, mut number: u64) -> io::Result<()> {
    let mut text = [0; 20];
    let mut at = text.len();
    loop {
        at -= 1;
        text[at] = b'0' + (number % 10) as u8;
        number /= 10;
        if number == 0 {
            return output.write_all(&text[at..]);
        }
    }
}

const UPPER: &[u8; 16] = b"0123456789ABCDEF";
const LOWER: &[u8; 16] = b"0123456789abcdef";

/// Two digits a byte.
fn write_digits(output: &mut impl Write, digits: &[u8; 16], bytes: &[u8]) -> io::Result<()> {
    let mut text = [0; 64];
    for part in bytes.chunks(text.len() / 2) {
        for (byte, pair) in part.iter().zip(text.chunks_mut(2)) {
            pair[0] = digits[usize::from(byte >> 4)];
            pair[1] = digits[usize::from(byte & 15)];
        }
        output.write_all(&text[..2 * part.len()])?;
    }
    Ok(())
}
