//! The lines that `try_sheets` must write, by the reference implementation.

use super::Case;
use crate::text::{joined, shown, Check};
use reference::deliver;

/// What is made of more bytes is shown by a check.
const MOST_SHOWN: usize = 40;

/// The buffers that some cases are made in have from none to so many bytes.
const MOST_ROOM: usize = 14;

/// What each byte of a buffer is before the call.
const HELD: u8 = 0xa5;

fn hex(bytes: &[u8]) -> String {
    joined(bytes, |byte| format!("{byte:02x}"))
}

/// What is made in a buffer that is long enough.
pub fn check_line(case: &Case) -> String {
    let answer = shown(case.answer(), |file| {
        let size = file.len();
        match size {
            0..=MOST_SHOWN => format!("written {size} buffer{}", hex(&file)),
            _ => format!("written {size} check {}", Check::of_bytes(&file)),
        }
    });
    format!("{}: {answer}\n", case.name())
}

/// A heading, then the answer and what the buffer holds for each length of it.
pub fn room_lines(case: &Case) -> String {
    let mut lines = format!("rooms of {}\n", case.name());
    let answer = case.answer();
    for room in 0..=MOST_ROOM {
        let mut buffer = vec![HELD; room];
        let written = answer.clone();
        let written = written.and_then(|file| deliver(&file, &mut buffer));
        let written = shown(written, |size| format!("written {size}"));
        lines += &format!("room {room}: {written} buffer{}\n", hex(&buffer));
    }
    lines
}
