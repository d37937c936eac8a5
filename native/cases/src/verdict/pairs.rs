//! Plan pairs to judge.

use crate::choices::{
    after_his_own, after_the_other, choices, extremes, falling_sets, first_choices, second_alone,
    several_leaves, two_nodes, weights,
};
use crate::game::accepted::chance_game;
use crate::plan::accepted::{chance_plan, even, study_cases};
use crate::plan::{fitting, Case};
use generator::large::{comb, most_nodes, most_sets};
use generator::named::{one_leaf, own_chain, wide_decision};
use generator::poker::{kuhn, kuhn_equilibrium, leduc};
use generator::tables::PlanWeights;
use reference::game::Player;
use reference::Refusal;

pub fn cases() -> Result<Vec<Case>, Refusal> {
    let mut cases = study_cases()?;
    cases.push(fitting(
        "one-leaf",
        &one_leaf([-1, 1]),
        &weights(&[1], &[1]),
    )?);
    cases.extend(who_gains()?);
    cases.extend(which_moves()?);
    cases.extend(gains_around_zero()?);
    cases.extend(chance_cases()?);
    cases.extend(large_cases()?);
    Ok(cases)
}

/// A game of two choices in which both take move 0.
fn choice(title: &'static str, one: &[i64], two: &[i64]) -> Result<Case, Refusal> {
    let plan = first_choices(one.len(), two.len());
    fitting(title, &choices(one, two), &plan)
}

fn who_gains() -> Result<Vec<Case>, Refusal> {
    Ok(vec![
        choice("neither-gains", &[1, 0], &[5, 3, 4])?,
        choice("only-player-1-gains", &[1, 0, 2], &[5, 3])?,
        choice("only-player-2-gains", &[1, 0], &[0, 3, 2])?,
        choice("both-gain-player-2-more", &[0, 1], &[0, 5])?,
        choice("both-gain-player-1-more", &[0, 5], &[0, 1])?,
        fitting(
            "player-1-without-sets",
            &second_alone(),
            &weights(&[2], &[3, 1, 1, 1]),
        )?,
        fitting(
            "player-2-without-sets",
            &wide_decision(3),
            &weights(&[4, 1, 1, 2], &[5]),
        )?,
    ])
}

/// Ties, sets that a plan bars, and sets in an order that is not the tree's.
fn which_moves() -> Result<Vec<Case>, Refusal> {
    let take_three = weights(&[1, 1, 0, 0, 0, 0], &[1]);
    Ok(vec![
        choice("tie-of-the-worthiest", &[0, 2, 2, 1], &[0])?,
        choice("tie-with-move-0", &[2, 0, 2], &[0, 1])?,
        choice("tie-below-zero", &[-3, -1, -1], &[0])?,
        fitting(
            "tie-at-zero",
            &choices(&[-1, 0, 0], &[0]),
            &weights(&[3, 3, 0, 0], &[2, 2]),
        )?,
        fitting(
            "barred-by-the-other",
            &after_the_other(),
            &weights(&[1, 1, 0, 1, 0], &[1, 1, 0]),
        )?,
        fitting(
            "not-barred-by-the-other",
            &after_the_other(),
            &weights(&[1, 1, 0, 1, 0], &[2, 1, 1]),
        )?,
        fitting("barred-by-his-own-plan", &after_his_own(2), &take_three)?,
        fitting("gain-behind-his-own-plan", &after_his_own(7), &take_three)?,
        fitting(
            "sets-falling",
            &falling_sets(),
            &weights(&[6, 1, 1, 0, 1, 2, 3, 3], &[2]),
        )?,
        fitting("set-of-two-nodes", &two_nodes(), &weights(&[1, 1, 0], &[2]))?,
    ])
}

/// The best value is -1, 0 or 1, and the gain 0 or 1.
fn gains_around_zero() -> Result<Vec<Case>, Refusal> {
    let nearly = weights(&[4_095, 4_094, 1], &[1, 1]);
    Ok(vec![
        choice("no-gain-at-minus-1", &[-1, -2], &[-1, -1])?,
        choice("no-gain-at-0", &[0, -1], &[0, 0])?,
        choice("no-gain-at-1", &[1, 0], &[1, -1])?,
        choice("gain-of-1-to-minus-1", &[-2, -1], &[-1])?,
        choice("gain-of-1-to-0", &[-1, 0], &[0])?,
        choice("gain-of-1-to-1", &[0, 1], &[0])?,
        choice("gain-of-1-of-player-2-to-0", &[0], &[-1, 0])?,
        fitting("gain-of-1-of-4095", &choices(&[1, 0], &[0]), &nearly)?,
        fitting("no-gain-of-4095", &choices(&[1, 1], &[0]), &nearly)?,
    ])
}

fn chance_cases() -> Result<Vec<Case>, Refusal> {
    let (low, high) = (-32_768, 32_767);
    let worst = weights(&[4_095, 4_095, 0], &[4_095, 4_095, 0]);
    let one = [[low, low], [low, high], [high, low], [high, high]];
    let two = [[high, low], [high, high], [low, low], [low, high]];
    Ok(vec![
        fitting(
            "several-leaves-on-a-pair",
            &several_leaves(),
            &weights(&[5, 2, 3], &[7]),
        )?,
        fitting(
            "chance-and-sets-after-larger",
            &chance_game(),
            &chance_plan(),
        )?,
        fitting("largest-gain-of-player-1", &extremes(one), &worst)?,
        fitting("largest-gain-of-player-2", &extremes(two), &worst)?,
        fitting("kuhn-poker", &kuhn(), &kuhn_equilibrium(4, 1))?,
        fitting("kuhn-poker-4095", &kuhn(), &kuhn_equilibrium(1_365, 455))?,
        fitting("kuhn-poker-one-unit-off", &kuhn(), &nearly_kuhn())?,
    ])
}

/// Player 2 calls with the lowest card once in 3.
fn nearly_kuhn() -> PlanWeights {
    let mut plan = kuhn_equilibrium(4, 1);
    plan.weights[1][3..5].copy_from_slice(&[2, 1]);
    plan
}

fn large_cases() -> Result<Vec<Case>, Refusal> {
    let in_turns = comb(|level| Player::BOTH[level % 2], 15);
    Ok(vec![
        even("leduc-poker", &leduc())?,
        even("4095-nodes", &most_nodes())?,
        even("most-sets", &most_sets())?,
        even("path-of-255-moves", &own_chain(255))?,
        even("path-of-255-moves-in-turns", &in_turns)?,
        even("path-of-255-sets-of-player-1", &comb(|_| Player::One, 3))?,
        even("path-of-255-sets-of-player-2", &comb(|_| Player::Two, 7))?,
    ])
}
