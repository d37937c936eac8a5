//! The cases of `try_plan`, which reads plan files with their games.

pub(crate) mod accepted;
mod lines;
mod order;
pub(crate) mod refused;

pub use order::{pairs, Pair};

use crate::game;
use crate::program::Program;
use crate::text::list;
use generator::named::plan_m;
use generator::tables::{GameTables, PlanWeights};
use reference::Refusal;

/// The file that names every case, each of its files on a line: the game and then the plan.
pub(crate) const LIST: &str = "cases";

/// The file that names those read into buffers of each length, likewise.
const ROOMS: &str = "rooms";

/// The cases read into buffers of each length: plans of 6, 3, 10 and no moves, and
/// some that are refused.
const READ_INTO_ROOMS: [&str; 8] = [
    "00-study-game-m",
    "00-three-moves",
    "00-sets-not-in-tree-order",
    "00-one-leaf",
    "13-refused-game",
    "14-one-byte-less",
    "15-d1-zero",
    "16-moves-after-weight-0",
];

/// A plan for each of 14, 15 and 16.
const REFUSED_PLANS: [&str; 3] = ["one-byte-less", "d1-zero", "moves-after-weight-0"];

/// A game file and a plan file with the refusal that they are made for, 0 where they
/// break no rule.
pub struct Case {
    pub refusal: Refusal,
    pub title: &'static str,
    pub game: Vec<u8>,
    pub plan: Vec<u8>,
}

impl Case {
    /// The name of the folder and of its line: the refusal, then the title.
    pub fn name(&self) -> String {
        format!("{:02}-{}", self.refusal, self.title)
    }

    /// The path of one of its files.
    pub fn path(&self, file: &str) -> String {
        format!("{}/{file}.bin", self.name())
    }
}

/// Every case: the plans that fit, those made for one refusal each, and those that
/// break two rules.
pub fn all_cases() -> Result<Vec<Case>, Refusal> {
    let mut cases = accepted::cases()?;
    cases.extend(refused::cases()?);
    cases.extend(pairs()?.into_iter().map(|pair| pair.both));
    Ok(cases)
}

/// The first case for each refusal of a game, and one for each of a plan.
pub(crate) fn refused_by_each() -> Result<Vec<Case>, Refusal> {
    let mut cases = all_cases()?;
    cases.retain(|case| case.title == "refused-game" || REFUSED_PLANS.contains(&case.title));
    Ok(cases)
}

/// Games with plan M, and plans, that break two rules with neighbouring numbers.
pub(crate) fn two_rules() -> Result<Vec<Case>, Refusal> {
    let games = game::pairs()?.into_iter().map(|pair| pair.both);
    let mut cases = with_plan_m(games)?;
    cases.extend(pairs()?.into_iter().map(|pair| pair.both));
    Ok(cases)
}

/// Each game with plan M.
pub(crate) fn with_plan_m(
    games: impl IntoIterator<Item = game::Case>,
) -> Result<Vec<Case>, Refusal> {
    let plan = plan_m().bytes()?;
    let case = |game: game::Case| Case {
        refusal: game.refusal,
        title: game.title,
        game: game.file,
        plan: plan.clone(),
    };
    Ok(games.into_iter().map(case).collect())
}

pub fn try_plan() -> Result<Program, Refusal> {
    let output = Output {
        check: lines::check_line,
        rooms: lines::room_lines,
        end: String::new(),
    };
    Ok(program("try_plan", all_cases()?, &READ_INTO_ROOMS, output))
}

/// What a program writes for a case of each of the two lists, and at the end.
pub(crate) struct Output {
    pub check: fn(&Case) -> String,
    pub rooms: fn(&Case) -> String,
    pub end: String,
}

/// A program with a folder for each case and the two lists.
pub(crate) fn program(
    name: &'static str,
    cases: Vec<Case>,
    into_rooms: &[&str],
    output: Output,
) -> Program {
    let in_rooms: Vec<&Case> = cases
        .iter()
        .filter(|case| into_rooms.contains(&case.name().as_str()))
        .collect();
    let mut stdout: String = cases.iter().map(output.check).collect();
    for case in &in_rooms {
        stdout.push_str(&(output.rooms)(case));
    }
    stdout.push_str(&output.end);
    let paths = |case: &Case| ["game", "plan"].map(|file| case.path(file));
    let mut files = vec![
        (LIST.to_string(), list(cases.iter().flat_map(paths))),
        (
            ROOMS.to_string(),
            list(in_rooms.into_iter().flat_map(paths)),
        ),
    ];
    for case in cases {
        let [game, plan] = paths(&case);
        files.extend([(game, case.game), (plan, case.plan)]);
    }
    Program::new(name, files, stdout)
}

/// The cases made for one refusal over one game, by their titles.
fn made_for<const COUNT: usize>(
    refusal: Refusal,
    game: &[u8],
    plans: [(&'static str, Vec<u8>); COUNT],
) -> Vec<Case> {
    let case = |(title, plan)| Case {
        refusal,
        title,
        game: game.to_vec(),
        plan,
    };
    plans.map(case).into()
}

/// The plan file of both players' weights by sequence number, D1 and D2 first.
fn plan_of(one: &[u64], two: &[u64]) -> Result<Vec<u8>, Refusal> {
    let weights = [one.to_vec(), two.to_vec()];
    PlanWeights { weights }.bytes()
}

/// A case by its tables.
pub(crate) fn fitting(
    title: &'static str,
    game: &GameTables,
    plan: &PlanWeights,
) -> Result<Case, Refusal> {
    Ok(Case {
        refusal: 0,
        title,
        game: game.bytes()?,
        plan: plan.bytes()?,
    })
}
