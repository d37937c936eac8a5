//! Games with plans that fit them.

use crate::choices::{
    cancelling, choices, extremes, falling_sets, first_choices, second_alone, several_leaves,
    two_nodes, weights,
};
use crate::game::accepted::chance_game;
use crate::plan::accepted::{chance_plan, even, study_cases};
use crate::plan::{fitting, Case};
use generator::large::{comb, most_nodes, most_sets};
use generator::named::{one_leaf, own_chain, wide_decision};
use generator::poker::{kuhn, kuhn_equilibrium, leduc};
use reference::game::Player;
use reference::Refusal;

pub fn cases() -> Result<Vec<Case>, Refusal> {
    let mut cases = study_cases()?;
    cases.extend(small_cases()?);
    cases.extend(extreme_cases()?);
    cases.extend(zero_cases()?);
    cases.extend(large_cases()?);
    Ok(cases)
}

fn small_cases() -> Result<Vec<Case>, Refusal> {
    let leaf = one_leaf([-1, 1]);
    Ok(vec![
        fitting("one-leaf", &leaf, &weights(&[1], &[1]))?,
        fitting("one-leaf-4095", &leaf, &weights(&[4_095], &[4_095]))?,
        fitting(
            "several-leaves-on-a-pair",
            &several_leaves(),
            &weights(&[5, 2, 3], &[7]),
        )?,
        fitting(
            "sums-that-cancel",
            &cancelling(),
            &weights(&[3], &[4, 1, 3]),
        )?,
        fitting(
            "chance-and-sets-after-larger",
            &chance_game(),
            &chance_plan(),
        )?,
        fitting(
            "sets-falling",
            &falling_sets(),
            &weights(&[6, 1, 2, 0, 3, 3, 0, 6], &[2]),
        )?,
        fitting("set-of-two-nodes", &two_nodes(), &weights(&[3, 2, 1], &[2]))?,
        fitting(
            "player-2-without-sets",
            &wide_decision(3),
            &weights(&[4, 1, 1, 2], &[5]),
        )?,
        fitting(
            "player-1-without-sets",
            &second_alone(),
            &weights(&[2], &[3, 1, 1, 1]),
        )?,
        fitting("kuhn-poker", &kuhn(), &kuhn_equilibrium(4, 1))?,
    ])
}

/// D0 = D1 = D2 = 4,095 with the lowest and the highest payoffs.
fn extreme_cases() -> Result<Vec<Case>, Refusal> {
    let (low, high) = (-32_768, 32_767);
    let plan = weights(&[4_095, 4_094, 1], &[4_095, 1, 4_094]);
    let mixed = [[low, high], [high, low], [low, low], [high, high]];
    Ok(vec![
        fitting("lowest-payoffs", &extremes([[low; 2]; 4]), &plan)?,
        fitting("highest-payoffs", &extremes([[high; 2]; 4]), &plan)?,
        fitting("lowest-and-highest-payoffs", &extremes(mixed), &plan)?,
    ])
}

/// Worths compared at and around zero, all negative, and alike.
fn zero_cases() -> Result<Vec<Case>, Refusal> {
    let case = |title, one: &[i64], two: &[i64]| {
        let plan = first_choices(one.len(), two.len());
        fitting(title, &choices(one, two), &plan)
    };
    Ok(vec![
        case("worths-rising-through-0", &[-1, 0, 1], &[-1, 0])?,
        case("worths-falling-through-0", &[1, 0, -1], &[0, -1])?,
        case("worths-of-0-and-1", &[0, 1], &[1, 0])?,
        case("worths-of-minus-1-and-1", &[-1, 1], &[1, -1])?,
        case("all-worths-negative", &[-5, -3, -4], &[-1, -2])?,
        case("worths-alike", &[0, 1, 1], &[-1, -1])?,
        case("worths-of-0-alone", &[0, 0], &[0, 0, 0])?,
    ])
}

fn large_cases() -> Result<Vec<Case>, Refusal> {
    let in_turns = comb(|level| Player::BOTH[level % 2], 15);
    Ok(vec![
        even("leduc-poker", &leduc())?,
        even("4095-nodes", &most_nodes())?,
        even("most-sets", &most_sets())?,
        even("path-of-255-moves", &own_chain(255))?,
        even("path-of-255-moves-in-turns", &in_turns)?,
        even("path-of-255-sets", &comb(|_| Player::One, 3))?,
    ])
}
