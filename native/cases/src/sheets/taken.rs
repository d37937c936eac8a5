//! Sheets that plans are made from.

use super::{odds_case, sheet_case, Case};
use crate::game::accepted::chance_game;
use crate::plan::accepted::even;
use generator::large::{most_nodes, most_sets};
use generator::named::{backward, one_leaf, own_chain, row_of_sets, study_game, wide_decision};
use generator::poker::{kuhn, kuhn_odds, leduc};
use generator::tables::GameTables;
use reference::game::{check_game, Player};
use reference::plan::check_plan;
use reference::sheet::{Sheet, WIDTH};
use reference::Refusal;

pub fn cases() -> Result<Vec<Case>, Refusal> {
    let mut cases = study_cases()?;
    cases.extend(small_cases()?);
    cases.extend(large_cases()?);
    Ok(cases)
}

/// The game of document 003, with the odds of L R S T l r.
fn study_cases() -> Result<Vec<Case>, Refusal> {
    let study = study_game();
    let case = |title, odds: [u64; 6]| odds_case(0, title, &study, &odds);
    Ok(vec![
        case("of-plan-m", [1, 0, 1, 2, 1, 2])?,
        case("of-d1-15-and-d2-3", [1, 2, 1, 4, 3, 6])?,
        case("common-factor-in-a-set", [2, 2, 2, 1, 1, 0])?,
        case("common-factor-across-sets", [6, 4, 5, 1, 1, 0])?,
        case("odds-never-arrived-at", [0, 7, 5, 8, 4, 0])?,
        case("no-odds-never-arrived-at", [0, 7, 0, 0, 4, 0])?,
        case("zero-odds-of-ones", [0, 1, 0, 0, 1, 0])?,
        case("zero-odds-among-others", [1, 1, 0, 3, 0, 2])?,
        case("d1-4095", [1, 4_094, 1, 0, 1, 0])?,
        case("d2-4095", [1, 0, 1, 0, 4_094, 1])?,
        case("d1-63-times-65", [1, 62, 1, 64, 1, 0])?,
        case("largest-odds", [4_095; 6])?,
    ])
}

fn small_cases() -> Result<Vec<Case>, Refusal> {
    let rising: Vec<u64> = (0..64).collect();
    let chance = [10, 8, 6, 2, 6, 4_095, 4, 6, 5, 2];
    let (leaf, chain) = (one_leaf([-1, 1]), own_chain(255));
    let row = row_of_sets(Player::One, 11);
    Ok(vec![
        odds_case(0, "set-after-a-later-one", &backward(), &[1, 2, 1, 1])?,
        odds_case(0, "sets-not-in-tree-order", &chance_game(), &chance)?,
        odds_case(0, "one-leaf", &leaf, &[])?,
        odds_case(0, "one-move", &wide_decision(1), &[9])?,
        odds_case(0, "three-moves", &wide_decision(3), &[1, 1, 2])?,
        odds_case(0, "64-moves", &wide_decision(64), &rising)?,
        odds_case(0, "64-largest-odds", &wide_decision(64), &[4_095; 64])?,
        odds_case(0, "11-sets-in-a-row", &row, &[1; 22])?,
        odds_case(0, "path-of-255-moves", &chain, &[7; 255])?,
        odds_case(0, "kuhn-poker", &kuhn(), &kuhn_odds())?,
    ])
}

fn large_cases() -> Result<Vec<Case>, Refusal> {
    Ok(vec![
        of_even("leduc-poker", &leduc())?,
        of_even("4095-nodes", &most_nodes())?,
        of_even("most-sets", &most_sets())?,
    ])
}

/// The sheet of the plan that shares 4,095 and 4,094 out as evenly as can be.
fn of_even(title: &'static str, tables: &GameTables) -> Result<Case, Refusal> {
    let case = even(title, tables)?;
    let game = check_game(&case.game)?;
    let sheet = Sheet::of_plan(&check_plan(&game, &case.plan)?);
    Ok(sheet_case(0, title, &case.game, sheet.bytes(WIDTH)))
}
