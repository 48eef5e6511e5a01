//! A line of a script as words, and a word as a number or as bytes.

/// The words of a line that are still to be read.
pub struct Words<'a>(Vec<&'a [u8]>);

/// `BB*N` and pairs of digits give at most this many bytes on a line.
pub const MOST_BYTES: usize = 0x4000;

/// What a line means: nothing behind `#` counts, and nothing behind `->`.
pub fn meant(line: &[u8]) -> &[u8] {
    let line = line.split(|&c| c == b'#').next().unwrap_or(line);
    let arrow = line.windows(2).position(|pair| pair == b"->");
    &line[..arrow.unwrap_or(line.len())]
}

/// What stands behind the first `->` that is in no comment, without the blanks at its ends.
pub fn wanted(line: &[u8]) -> Option<&[u8]> {
    let line = line.split(|&c| c == b'#').next().unwrap_or(line);
    let arrow = line.windows(2).position(|pair| pair == b"->")?;
    Some(line[arrow + 2..].trim_ascii())
}

/// What stands behind the first `#`.
pub fn comment(line: &[u8]) -> &[u8] {
    line.iter().position(|&c| c == b'#').map_or(&[], |at| &line[at + 1..])
}

impl<'a> Words<'a> {
    pub fn of(line: &'a [u8]) -> Words<'a> {
        let split = meant(line).split(u8::is_ascii_whitespace);
        Words(split.filter(|word| !word.is_empty()).rev().collect())
    }

    pub fn word(&mut self) -> Option<&'a [u8]> {
        self.0.pop()
    }

    /// Nothing may stand behind the last argument.
    pub fn end(&self) -> Option<()> {
        Some(()).filter(|()| self.0.is_empty())
    }

    /// The next word as a number of at most `top`.
    pub fn number(&mut self, top: u64) -> Option<u64> {
        number(self.word()?, top)
    }

    pub fn flag(&mut self) -> Option<bool> {
        self.number(1).map(|n| n == 1)
    }

    pub fn byte(&mut self) -> Option<u8> {
        self.number(0xFF).map(|n| n as u8)
    }

    pub fn short(&mut self) -> Option<u16> {
        self.number(0xFFFF).map(|n| n as u16)
    }

    pub fn long(&mut self) -> Option<u32> {
        self.number(0xFFFF_FFFF).map(|n| n as u32)
    }

    pub fn size(&mut self, top: usize) -> Option<usize> {
        self.number(top as u64).map(|n| n as usize)
    }

    /// The next word is `name=value`, with this name.
    pub fn named(&mut self, name: &str, top: u64) -> Option<u64> {
        let value = self.word()?.strip_prefix(name.as_bytes())?.strip_prefix(b"=")?;
        number(value, top)
    }

    /// Every word that is left, as bytes.
    pub fn bytes(&mut self) -> Option<Vec<u8>> {
        let mut bytes = Vec::new();
        while let Some(word) = self.word() {
            match word.iter().position(|&c| c == b'*') {
                Some(star) => {
                    let [byte] = pairs(&word[..star])?[..] else { return None };
                    let times = number(&word[star + 1..], MOST_BYTES as u64)? as usize;
                    bytes.resize(bytes.len() + times, byte);
                }
                None => bytes.extend(pairs(word)?),
            }
        }
        Some(bytes).filter(|bytes| bytes.len() <= MOST_BYTES)
    }
}

fn digit(c: u8) -> Option<u8> {
    char::from(c).to_digit(16).map(|d| d as u8)
}

/// Hex digits, one at least; never cut.
fn number(word: &[u8], top: u64) -> Option<u64> {
    if word.is_empty() {
        return None;
    }
    let value = word.iter().try_fold(0u64, |value, &c| {
        value.checked_mul(16).map(|shifted| shifted + u64::from(digit(c).unwrap_or(0)))
    })?;
    let good = word.iter().all(|&c| digit(c).is_some());
    Some(value).filter(|&value| good && value <= top)
}

/// Pairs of hex digits, one at least.
fn pairs(word: &[u8]) -> Option<Vec<u8>> {
    if word.is_empty() || word.len() % 2 != 0 {
        return None;
    }
    word.chunks(2).map(|pair| Some(digit(pair[0])? << 4 | digit(pair[1])?)).collect()
}
