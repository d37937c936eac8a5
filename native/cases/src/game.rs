//! The cases of `try_game`, which checks game files and looks their sets and
//! nodes up.

pub(crate) mod accepted;
mod lines;
mod order;
mod recall;
mod refused;

pub use order::{pairs, Pair};

use crate::program::Program;
use crate::text::list;
use reference::Refusal;

/// The file that names every case, one on each line.
const LIST: &str = "cases";

/// The cases whose sets and nodes are looked up.
const LOOKED_UP: [&str; 3] = ["00-study-game", "00-chance-game", "13-set-below-itself"];

/// The cases whose fields are given: a game of 3 sets and 9 nodes, a shorter one with
/// chance nodes and the least and greatest payoffs, and a refused one.
const FIELDS_OF: [&str; 3] = ["00-study-game", "00-no-sets", "13-set-below-itself"];

/// A game file with the refusal that it is made for, 0 where it breaks no rule.
pub struct Case {
    pub refusal: Refusal,
    pub title: &'static str,
    pub file: Vec<u8>,
}

impl Case {
    /// The name of the file and of its line: the refusal, then the title.
    pub fn name(&self) -> String {
        format!("{:02}-{}", self.refusal, self.title)
    }
}

/// Every case: the files that are accepted, those made for one refusal each,
/// and those that break two rules.
pub fn all_cases() -> Result<Vec<Case>, Refusal> {
    let mut cases = accepted::cases()?;
    cases.extend(refused::cases()?);
    cases.extend(pairs()?.into_iter().map(|pair| pair.both));
    Ok(cases)
}

/// The program with one file for each case and the list of their names.
pub fn try_game() -> Result<Program, Refusal> {
    let cases = all_cases()?;
    let list = (LIST.to_string(), list(cases.iter().map(Case::name)));
    let mut stdout: String = cases.iter().map(lines::check_line).collect();
    for case in named(&cases, &LOOKED_UP) {
        stdout.push_str(&lines::look_up_lines(case));
    }
    for case in named(&cases, &FIELDS_OF) {
        stdout.push_str(&lines::field_lines(case));
    }
    let files = cases.into_iter().map(|case| (case.name(), case.file));
    Ok(Program::new(
        "try_game",
        files.chain([list]).collect(),
        stdout,
    ))
}

/// The cases of these names.
fn named<'a>(cases: &'a [Case], names: &'a [&str]) -> impl Iterator<Item = &'a Case> {
    let is_named = |case: &&Case| names.contains(&case.name().as_str());
    cases.iter().filter(is_named)
}

/// The cases made for one refusal, by their titles.
fn made_for<const COUNT: usize>(
    refusal: Refusal,
    files: [(&'static str, Vec<u8>); COUNT],
) -> Vec<Case> {
    let case = |(title, file)| Case {
        refusal,
        title,
        file,
    };
    files.map(case).into()
}
