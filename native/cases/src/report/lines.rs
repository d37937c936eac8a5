//! The lines that `try_report` must write, by the reference implementation.

use crate::plan::Case;
use crate::text::{shown, Check};
use reference::deliver;
use reference::report::{refusal_line, report};

/// What each byte of a buffer is before the call.
const HELD: u8 = 7;

/// The numbers whose refusal lines are written, known or not.
const NUMBERS: [u64; 8] = [0, 1, 9, 10, 13, 18, 255, u64::MAX];

/// A heading, then what the desk program prints.
pub fn report_lines(case: &Case) -> String {
    format!("== {}\n{}", case.name(), report(&case.game, &case.plan))
}

/// A heading, then the answer and a check of the buffer for lengths around that of the text.
pub fn room_lines(case: &Case) -> String {
    let text = report(&case.game, &case.plan);
    let length = text.len();
    let mut lines = format!("rooms of {}\n", case.name());
    for room in [0, 1, length - 1, length, length + 1] {
        let mut buffer = vec![HELD; room];
        let answer = deliver(text.as_bytes(), &mut buffer);
        let answer = shown(answer, |written| format!("written {written}"));
        let check = Check::of_bytes(&buffer);
        lines += &format!("room {room}: {answer} check {check}\n");
    }
    lines
}

/// Each number with its refusal line.
pub fn refusal_lines() -> String {
    let line = |number| format!("line of {number}: {}", refusal_line(number));
    NUMBERS.map(line).concat()
}
