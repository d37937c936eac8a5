//! The cases of `try_form`, which makes payoff tables and values.

mod lines;
mod pairs;

use crate::plan::{self, Case, Output};
use crate::program::Program;
use reference::Refusal;

/// The cases whose tables are made in buffers of each length: 5 rows, 1 row, 3 rows, and some
/// that are refused.
const MADE_IN_ROOMS: [&str; 5] = [
    "00-study-game-m",
    "00-one-leaf",
    "00-sums-that-cancel",
    "13-refused-game",
    "16-moves-after-weight-0",
];

/// Every case: the pairs that fit, and some for each refusal.
pub fn all_cases() -> Result<Vec<Case>, Refusal> {
    let mut cases = pairs::cases()?;
    cases.extend(plan::refused_by_each()?);
    Ok(cases)
}

pub fn try_form() -> Result<Program, Refusal> {
    let output = Output {
        check: lines::check_lines,
        rooms: lines::room_lines,
        end: String::new(),
    };
    Ok(plan::program(
        "try_form",
        all_cases()?,
        &MADE_IN_ROOMS,
        output,
    ))
}
