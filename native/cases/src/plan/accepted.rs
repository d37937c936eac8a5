//! Plans that fit their games.

use super::{fitting, Case};
use crate::game::accepted::chance_game;
use generator::large::{most_nodes, most_sets};
use generator::named::{
    one_leaf, own_chain, plan_f, plan_m, plan_q, plan_r_against_thirds, study_game, wide_decision,
};
use generator::plans::even_plan;
use generator::poker::{kuhn, kuhn_equilibrium, leduc};
use generator::tables::{GameTables, PlanWeights};
use reference::game::check_game;
use reference::Refusal;

pub fn cases() -> Result<Vec<Case>, Refusal> {
    let mut cases = study_cases()?;
    cases.extend(small_cases()?);
    cases.extend(poker_cases()?);
    cases.extend(large_cases()?);
    Ok(cases)
}

/// The plans that document 01 gives for its game, of 6 moves.
pub fn study_cases() -> Result<Vec<Case>, Refusal> {
    let study = study_game();
    Ok(vec![
        fitting("study-game-q", &study, &plan_q())?,
        fitting("study-game-m", &study, &plan_m())?,
        fitting("study-game-f", &study, &plan_f())?,
        fitting("study-game-thirds", &study, &plan_r_against_thirds())?,
        fitting("study-game-4095", &study, &plan_m().scaled([1_365, 1_365]))?,
    ])
}

fn small_cases() -> Result<Vec<Case>, Refusal> {
    let weights = |one: &[u64], two: &[u64]| PlanWeights {
        weights: [one.to_vec(), two.to_vec()],
    };
    let leaf = one_leaf([-1, 1]);
    let chain = own_chain(255);
    Ok(vec![
        fitting("one-leaf", &leaf, &weights(&[1], &[1]))?,
        fitting("one-leaf-4095", &leaf, &weights(&[4_095], &[7]))?,
        fitting("one-move", &wide_decision(1), &weights(&[9, 9], &[2]))?,
        fitting(
            "two-moves",
            &wide_decision(2),
            &weights(&[4_095, 4_094, 1], &[1]),
        )?,
        fitting(
            "three-moves",
            &wide_decision(3),
            &weights(&[4, 1, 1, 2], &[5]),
        )?,
        fitting("64-moves", &wide_decision(64), &weights(&rising(64), &[1]))?,
        fitting("path-of-255-moves", &chain, &weights(&[3], &[4_095; 256]))?,
        fitting("sets-not-in-tree-order", &chance_game(), &chance_plan())?,
    ])
}

/// The weights 0, 1, 2 and on with their sum.
fn rising(moves: u64) -> Vec<u64> {
    let weights = 0..moves;
    [weights.clone().sum()].into_iter().chain(weights).collect()
}

/// Player 1 has sets 2, 3 and 4, each after a move of the one before; player 2 has
/// set 0 after a move of set 1.
pub fn chance_plan() -> PlanWeights {
    PlanWeights {
        weights: [vec![12, 5, 4, 3, 1, 3, 3], vec![7, 2, 3, 5, 2]],
    }
}

fn poker_cases() -> Result<Vec<Case>, Refusal> {
    Ok(vec![
        fitting("kuhn-poker", &kuhn(), &kuhn_equilibrium(4, 1))?,
        even("leduc-poker", &leduc())?,
    ])
}

fn large_cases() -> Result<Vec<Case>, Refusal> {
    Ok(vec![
        even("4095-nodes", &most_nodes())?,
        even("most-sets", &most_sets())?,
    ])
}

/// A game with the plan that shares 4,095 and 4,094 out as evenly as can be.
pub fn even(title: &'static str, tables: &GameTables) -> Result<Case, Refusal> {
    let game = check_game(&tables.bytes()?)?;
    fitting(title, tables, &even_plan(&game, [4_095, 4_094]))
}
