//! The cases of `try_tolerance`, which judges plan pairs by a house tolerance.

mod lines;
mod pairs;

use crate::plan::{self, Case, LIST};
use crate::program::Program;
use crate::text::list;
use crate::verdict;
use reference::Refusal;

/// The files of a case, in the order of the list.
const FILES: [&str; 3] = ["game", "plan", "tolerances"];

/// Every case: the pairs of `try_verdict` and more that fit, some for each refusal, and those that
/// break two rules.
pub fn all_cases() -> Result<Vec<Case>, Refusal> {
    let mut cases = verdict::pairs::cases()?;
    cases.extend(pairs::cases()?);
    cases.extend(plan::refused_by_each()?);
    cases.extend(plan::two_rules()?);
    Ok(cases)
}

/// The program with a folder for each case and the list.
pub fn try_tolerance() -> Result<Program, Refusal> {
    let mut stdout = String::new();
    let mut listed = Vec::new();
    let mut files = Vec::new();
    for case in all_cases()? {
        let tried = lines::tried(&case);
        stdout += &lines::answer_lines(&case, &tried);
        let paths = FILES.map(|file| case.path(file));
        listed.extend(paths.clone());
        let contents = [case.game, case.plan, lines::tolerances_file(&tried)];
        files.extend(paths.into_iter().zip(contents));
    }
    files.push((LIST.to_string(), list(listed)));
    Ok(Program::new("try_tolerance", files, stdout))
}
