//! The bytes of a command that its entry, its replies and page 10h repeat.

#[derive(Clone, Copy, Default, PartialEq, Eq)]
pub struct Echo {
    /// Bytes 4 to 7, the lowest first: the low half of the sector, and the device byte.
    pub low: u32,
    /// Bytes 8 to 10: the high half of the sector.
    pub high: u32,
    /// Bytes 12 and 13.
    pub tail: u16,
}

impl Echo {
    #[inline]
    pub fn of(frame: &[u8; 20]) -> Echo {
        let [_, _, _, _, a, b, c, d, e, f, g, _, h, i, ..] = *frame;
        Echo {
            low: u32::from_le_bytes([a, b, c, d]),
            high: u32::from_le_bytes([e, f, g, 0]),
            tail: u16::from_le_bytes([h, i]),
        }
    }

    pub fn tag(&self) -> u8 {
        (self.tail >> 3 & 31) as u8
    }

    pub fn sector(&self) -> u64 {
        u64::from(self.low & 0xFF_FFFF) | u64::from(self.high) << 24
    }

    /// The same command, at another sector.
    pub fn at(self, sector: u32) -> Echo {
        Echo { low: sector & 0xFF_FFFF | self.low & 0xFF00_0000, high: sector >> 24, ..self }
    }

    /// Lays the bytes into a frame or a page; byte 11 is zero.
    #[inline]
    pub fn lay(&self, into: &mut [u8]) {
        into[4..8].copy_from_slice(&self.low.to_le_bytes());
        into[8..12].copy_from_slice(&self.high.to_le_bytes());
        into[12..14].copy_from_slice(&self.tail.to_le_bytes());
    }
}

/// Sectors of a queued command, from its features bytes; 0 stands for the most.
pub fn sectors(features: u16) -> u32 {
    match features {
        0 => 65_536,
        count => u32::from(count),
    }
}
