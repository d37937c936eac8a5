//! How a bit field is fetched.

pub trait Reader {
    fn field(bytes: &[u8], at: usize, width: usize) -> u64;
}

/// Bit by bit, as the library does.
pub struct BitLoop;

impl Reader for BitLoop {
    fn field(bytes: &[u8], at: usize, width: usize) -> u64 {
        let mut value = 0;
        for i in at..at + width {
            let bit = match bytes.get(i / 8) {
                Some(&byte) => u64::from(byte) >> (7 - i % 8) & 1,
                None => 0,
            };
            value = 2 * value + bit;
        }
        value
    }
}

/// A word at a time; every field lies within eight bytes.
pub struct Word;

impl Reader for Word {
    fn field(bytes: &[u8], at: usize, width: usize) -> u64 {
        let first = at / 8;
        let word = match bytes.get(first..first + 8) {
            Some(part) => u64::from_be_bytes(part.try_into().expect("eight bytes")),
            None => {
                let mut part = [0; 8];
                let rest = bytes.get(first..).unwrap_or(&[]);
                part[..rest.len()].copy_from_slice(rest);
                u64::from_be_bytes(part)
            }
        };
        word << (at % 8) >> (64 - width)
    }
}
