//! The cases of `try_verdict`, which judges plan pairs.

mod lines;
pub(crate) mod pairs;

use crate::plan::{self, Case, Output};
use crate::program::Program;
use reference::Refusal;

/// The cases judged with buffers of each length: strategies of 2, 3 and 1 moves, accepted
/// pairs, and some that are refused.
const JUDGED_IN_ROOMS: [&str; 9] = [
    "00-study-game-m",
    "00-study-game-f",
    "00-one-leaf",
    "00-sets-falling",
    "00-only-player-2-gains",
    "13-refused-game",
    "14-one-byte-less",
    "15-d1-zero",
    "16-moves-after-weight-0",
];

/// Every case: the pairs that fit, and some for each refusal.
pub fn all_cases() -> Result<Vec<Case>, Refusal> {
    let mut cases = pairs::cases()?;
    cases.extend(plan::refused_by_each()?);
    Ok(cases)
}

pub fn try_verdict() -> Result<Program, Refusal> {
    let output = Output {
        check: lines::check_line,
        rooms: lines::room_lines,
        end: String::new(),
    };
    Ok(plan::program(
        "try_verdict",
        all_cases()?,
        &JUDGED_IN_ROOMS,
        output,
    ))
}
