//! The data files and the expected output of the programs under `crates/`.
//! The files come from the generator or are made here, the output comes from
//! the reference implementation, that of `try_lists` from the lengths of its
//! files: nothing is taken from a run of a program.

pub mod desk;
pub mod form;
pub mod game;
pub mod lists;
pub mod plan;
pub mod program;
pub mod report;
pub mod responses;
pub mod sheets;
pub mod tolerance;
pub mod verdict;
pub mod writers;

mod choices;
mod text;

use program::Program;
use reference::Refusal;

/// Every program with its files.
pub fn programs() -> Result<Vec<Program>, Refusal> {
    Ok(vec![
        desk::desk()?,
        game::try_game()?,
        plan::try_plan()?,
        writers::try_writers()?,
        form::try_form()?,
        verdict::try_verdict()?,
        report::try_report()?,
        sheets::try_sheets()?,
        tolerance::try_tolerance()?,
        lists::try_lists(),
        responses::time_responses()?,
    ])
}
