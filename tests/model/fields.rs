//! Named fields: where their bits stand in the bytes of a frame or page.

use std::ops::Range;

/// Neighbouring bits: `bits` of them, from bit `at` of the bytes (bit 0 of
/// byte 0 comes first), standing for the value's bits from `to` upwards.
#[derive(Clone, Copy)]
struct Run {
    at: usize,
    to: usize,
    bits: usize,
}

/// A named field. None has more than two runs of bits.
pub struct Field {
    pub name: &'static str,
    runs: [Run; 2],
}

const NO_RUN: Run = Run { at: 0, to: 0, bits: 0 };

const fn run(byte: usize, low: usize, to: usize, bits: usize) -> Run {
    Run { at: 8 * byte + low, to, bits }
}

/// `bits` bits from bit `low` of byte `byte`.
pub const fn part(name: &'static str, byte: usize, low: usize, bits: usize) -> Field {
    Field { name, runs: [run(byte, low, 0, bits), NO_RUN] }
}

/// Whole bytes, the lowest first.
pub const fn whole(name: &'static str, byte: usize, bytes: usize) -> Field {
    part(name, byte, 0, 8 * bytes)
}

/// Bytes 4-6 are LBA 0-23, bytes 8-10 are LBA 24-47, wherever there is an LBA.
pub const fn lba() -> Field {
    Field { name: "lba", runs: [run(4, 0, 0, 24), run(8, 0, 24, 24)] }
}

/// The status of A1h: bits 6:4 and 2:0 of byte 2 are those bits of status.
pub const fn set_bits_status() -> Field {
    Field { name: "status", runs: [run(2, 0, 0, 3), run(2, 4, 4, 3)] }
}

impl Run {
    /// As many ones as the run has bits. No run has more than 32.
    fn ones(&self) -> u64 {
        (1 << self.bits) - 1
    }

    /// The bytes that the run touches: with bits before its first, at most 5.
    fn bytes(&self) -> Range<usize> {
        self.at / 8..(self.at + self.bits + 7) / 8
    }

    fn take(&self, bytes: &[u8]) -> u64 {
        (little_endian(&bytes[self.bytes()]) >> (self.at % 8) & self.ones()) << self.to
    }

    fn put(&self, value: u64, bytes: &mut [u8]) {
        let set = ((value >> self.to & self.ones()) << (self.at % 8)).to_le_bytes();
        bytes[self.bytes()].iter_mut().zip(&set).for_each(|(byte, more)| *byte |= more);
    }
}

impl Field {
    /// The field's value in these bytes.
    pub fn take(&self, bytes: &[u8]) -> u64 {
        self.runs.iter().map(|run| run.take(bytes)).sum()
    }

    /// Sets the field in bytes where it is still 0.
    pub fn put(&self, value: u64, bytes: &mut [u8]) {
        self.runs.iter().for_each(|run| run.put(value, bytes));
    }

    /// No bit of the value lies outside the field (refusal 25 otherwise).
    pub fn holds(&self, value: u64) -> bool {
        let room: u64 = self.runs.iter().map(|run| run.ones() << run.to).sum();
        value & !room == 0
    }
}

/// Bytes, the lowest first, as a number.
pub fn little_endian(bytes: &[u8]) -> u64 {
    bytes.iter().rev().fold(0, |number, &b| number << 8 | u64::from(b))
}
