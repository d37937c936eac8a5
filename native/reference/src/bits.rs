//! Bit fields, most significant bit first, and two's complement of 16 bits.

/// Reads fields one after the other from a slice of bytes.
pub struct BitReader<'a> {
    bytes: &'a [u8],
    position: usize,
}

impl<'a> BitReader<'a> {
    pub fn new(bytes: &'a [u8]) -> Self {
        BitReader { bytes, position: 0 }
    }

    /// The next `width` bits as a number, or nothing where the bytes run out.
    /// Of more than 64 bits the last 64 count.
    pub fn read(&mut self, width: usize) -> Option<u64> {
        let mut value = 0;
        for _ in 0..width {
            value = (value << 1) | self.bit()?;
        }
        Some(value)
    }

    /// The number of bits not read yet.
    pub fn remaining(&self) -> usize {
        self.bytes.len() * 8 - self.position
    }

    fn bit(&mut self) -> Option<u64> {
        let byte = self.bytes.get(self.position / 8)?;
        let bit = (byte >> (7 - self.position % 8)) & 1;
        self.position += 1;
        Some(u64::from(bit))
    }
}

/// Collects fields; the last byte is filled with zero bits.
#[derive(Default)]
pub struct BitWriter {
    bytes: Vec<u8>,
    position: usize,
}

impl BitWriter {
    pub fn new() -> Self {
        BitWriter::default()
    }

    /// Appends the lowest `width` bits of `value`, with zeros above bit 63.
    pub fn write(&mut self, value: u64, width: u32) {
        for place in (0..width).rev() {
            let bit = value.checked_shr(place).unwrap_or(0) & 1;
            self.push(bit == 1);
        }
    }

    pub fn into_bytes(self) -> Vec<u8> {
        self.bytes
    }

    fn push(&mut self, bit: bool) {
        let place = self.position % 8;
        if place == 0 {
            self.bytes.push(0);
        }
        if let (true, Some(last)) = (bit, self.bytes.last_mut()) {
            *last |= 0x80 >> place;
        }
        self.position += 1;
    }
}

/// Whether `value` can be written in `width` bits.
pub fn fits(value: u64, width: u32) -> bool {
    value.checked_shr(width).unwrap_or(0) == 0
}

/// The number that the lowest 16 bits stand for in two's complement.
pub fn from_twos_complement(bits: u64) -> i64 {
    let low = (bits & 0xffff) as i64;
    if low < 0x8000 {
        low
    } else {
        low - 0x1_0000
    }
}

/// The 16 bits of `value`, or nothing where it is too large or too small.
pub fn to_twos_complement(value: i64) -> Option<u64> {
    match value {
        0..=0x7fff => Some(value as u64),
        -0x8000..=-1 => Some((value + 0x1_0000) as u64),
        _ => None,
    }
}
