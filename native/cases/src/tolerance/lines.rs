//! The tolerances that are tried on each case, and the lines that `try_tolerance` must write, by
//! the reference implementation.

use crate::plan::Case;
use crate::text::shown;
use generator::tolerances::tolerances_near;
use reference::game::check_game;
use reference::plan::check_plan;
use reference::tolerance::passes;
use reference::Refusal;

/// How far from each gain the tolerances reach.
const REACH: i128 = 1;

/// A tolerance, and whether the pair passes there.
pub type Answer = (u16, Result<bool, Refusal>);

/// Tolerances at and around the gains of a pair that fits, the least and the largest of one that
/// is refused.
pub fn tried(case: &Case) -> Vec<Answer> {
    match judge(case) {
        Ok(answers) => answers,
        Err(refusal) => [0, u16::MAX]
            .map(|tolerance| (tolerance, Err(refusal)))
            .into(),
    }
}

fn judge(case: &Case) -> Result<Vec<Answer>, Refusal> {
    let game = check_game(&case.game)?;
    let plan = check_plan(&game, &case.plan)?;
    let tolerances = tolerances_near(&plan, REACH).into_iter();
    let answer = |tolerance| (tolerance, Ok(passes(&plan, tolerance)));
    Ok(tolerances.map(answer).collect())
}

/// A line for each tolerance.
pub fn answer_lines(case: &Case, tried: &[Answer]) -> String {
    let name = case.name();
    let line = |&(tolerance, answer): &Answer| {
        let answer = shown(answer, yes_or_no);
        format!("{name} at {tolerance}: {answer}\n")
    };
    tried.iter().map(line).collect()
}

fn yes_or_no(passes: bool) -> String {
    match passes {
        true => "yes".to_string(),
        false => "no".to_string(),
    }
}

/// The tolerances in two bytes each, the most significant first.
pub fn tolerances_file(tried: &[Answer]) -> Vec<u8> {
    let bytes = tried.iter().map(|(tolerance, _)| tolerance.to_be_bytes());
    bytes.flatten().collect()
}
