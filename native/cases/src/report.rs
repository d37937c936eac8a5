//! The cases of `try_report`, which writes what the desk program prints.

pub(crate) mod amounts;
mod lines;
mod pairs;

use crate::game;
use crate::plan::{self, Case, Output};
use crate::program::Program;
use reference::Refusal;

/// The cases whose text is written into buffers around its length: a deviation and an accepted
/// pair.
const WRITTEN_IN_ROOMS: [&str; 2] = ["00-study-game-f", "00-one-leaf"];

/// The games that document 01 names a refusal for.
const REFUSED_GAMES: [&str; 4] = [
    "65-moves-in-a-set",
    "65-moves-of-chance",
    "path-of-256-moves",
    "set-below-itself",
];

/// Every case: the pairs that fit, some for each refusal, and those that break two rules.
pub fn all_cases() -> Result<Vec<Case>, Refusal> {
    let mut cases = pairs::cases()?;
    cases.extend(amounts::cases()?);
    cases.extend(plan::refused_by_each()?);
    cases.extend(refused_games()?);
    cases.extend(plan::two_rules()?);
    Ok(cases)
}

pub fn try_report() -> Result<Program, Refusal> {
    let output = Output {
        check: lines::report_lines,
        rooms: lines::room_lines,
        end: lines::refusal_lines(),
    };
    Ok(plan::program(
        "try_report",
        all_cases()?,
        &WRITTEN_IN_ROOMS,
        output,
    ))
}

/// Document 01's games with plan M, and both files empty.
fn refused_games() -> Result<Vec<Case>, Refusal> {
    let mut games = game::all_cases()?;
    games.retain(|game| REFUSED_GAMES.contains(&game.title));
    let mut cases = plan::with_plan_m(games)?;
    cases.push(Case {
        refusal: 1,
        title: "both-files-empty",
        game: Vec::new(),
        plan: Vec::new(),
    });
    Ok(cases)
}
