//! Words that the lines of all programs have in common.

use reference::Refusal;
use std::fmt;

/// An answer's text, or the refusal's.
pub fn shown<T>(answer: Result<T, Refusal>, text: impl Fn(T) -> String) -> String {
    match answer {
        Ok(found) => text(found),
        Err(refusal) => format!("refusal {refusal}"),
    }
}

/// A space and its text for each entry.
pub fn joined<T>(entries: &[T], text: impl Fn(&T) -> String) -> String {
    entries
        .iter()
        .map(|entry| format!(" {}", text(entry)))
        .collect()
}

/// The names one on each line, as the programs read them.
pub fn list(names: impl IntoIterator<Item = String>) -> Vec<u8> {
    let lines = names.into_iter().map(|name| name + "\n");
    lines.collect::<String>().into_bytes()
}

/// A number for a whole list: from 0 on, each entry's sign (1 below zero, else 0) and then its
/// magnitude are taken in, each time (31 × the number so far + entry) modulo 65,521.
pub struct Check(u128);

impl Check {
    const MODULUS: u128 = 65_521;

    pub fn of(entries: &[i128]) -> Check {
        let taken_in = |check: u128, &entry: &i128| {
            let signed = Check::with(check, u128::from(entry < 0));
            Check::with(signed, entry.unsigned_abs())
        };
        Check(entries.iter().fold(0, taken_in))
    }

    /// The same for bytes, of which the value alone is taken in.
    pub fn of_bytes(bytes: &[u8]) -> Check {
        let taken_in = |check, &byte: &u8| Check::with(check, byte.into());
        Check(bytes.iter().fold(0, taken_in))
    }

    fn with(check: u128, number: u128) -> u128 {
        (31 * check + number) % Check::MODULUS
    }
}

impl fmt::Display for Check {
    fn fmt(&self, text: &mut fmt::Formatter) -> fmt::Result {
        self.0.fmt(text)
    }
}
