//! The files of the desk program itself: the study game with plan F.

use crate::program::Program;
use generator::named::{plan_f, study_game};
use reference::report::report;
use reference::Refusal;

pub fn desk() -> Result<Program, Refusal> {
    let (game, plan) = (study_game().bytes()?, plan_f().bytes()?);
    let stdout = report(&game, &plan);
    let data = vec![
        ("game.bin".to_string(), game),
        ("plan.bin".to_string(), plan),
    ];
    Ok(Program::new("desk", data, stdout))
}
