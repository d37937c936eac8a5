//! Pairs of document 01, and others whose listings differ in who is shown and in how much.

use crate::choices::{
    after_his_own, choices, falling_sets, first_choices, second_around_first, weights,
};
use crate::plan::accepted::{even, study_cases};
use crate::plan::{fitting, Case};
use generator::large::{comb, most_nodes, most_sets, most_sets_of_one};
use generator::named::{one_leaf, own_chain, wide_chance, wide_decision};
use generator::plans::pure_weights;
use generator::poker::{kuhn, kuhn_equilibrium, kuhn_with_every_call, kuhn_without_bluffs, leduc};
use generator::tables::PlanWeights;
use reference::game::{check_game, Move, Player};
use reference::Refusal;

pub fn cases() -> Result<Vec<Case>, Refusal> {
    let mut cases = study_cases()?;
    cases.push(fitting(
        "one-leaf",
        &one_leaf([-1, 1]),
        &weights(&[1], &[1]),
    )?);
    cases.extend(limit_cases()?);
    cases.extend(shown_cases()?);
    cases.extend(poker_cases()?);
    cases.extend(large_cases()?);
    Ok(cases)
}

/// Document 01's unstarred cases that pass.
fn limit_cases() -> Result<Vec<Case>, Refusal> {
    Ok(vec![
        even("64-moves-in-a-set", &wide_decision(64))?,
        even("64-moves-of-chance", &wide_chance(64))?,
        even("path-of-255-moves", &own_chain(255))?,
        even("4095-nodes", &most_nodes())?,
    ])
}

/// Neither player, one of them or both can gain; sets in an order that is not the tree's, and
/// sets behind moves that the plan does not make.
fn shown_cases() -> Result<Vec<Case>, Refusal> {
    let choice = |title, one: &[i64], two: &[i64]| {
        let plan = first_choices(one.len(), two.len());
        fitting(title, &choices(one, two), &plan)
    };
    Ok(vec![
        choice("neither-gains", &[1, 0], &[5, 3, 4])?,
        choice("only-player-1-gains", &[1, 0, 2], &[5, 3])?,
        choice("only-player-2-gains", &[1, 0], &[0, 3, 2])?,
        choice("both-gain-player-2-more", &[0, 1], &[0, 5])?,
        choice("tie-of-the-worthiest", &[0, 2, 2, 1], &[0])?,
        fitting(
            "player-2-around-player-1",
            &second_around_first(),
            &weights(&[1, 1, 0], &[3, 3, 0, 0, 2, 1]),
        )?,
        fitting(
            "gain-behind-his-own-plan",
            &after_his_own(7),
            &weights(&[1, 1, 0, 0, 0, 0], &[1]),
        )?,
        fitting(
            "sets-falling",
            &falling_sets(),
            &weights(&[6, 1, 1, 0, 1, 2, 3, 3], &[2]),
        )?,
    ])
}

fn poker_cases() -> Result<Vec<Case>, Refusal> {
    let kuhn = kuhn();
    Ok(vec![
        fitting("kuhn-poker", &kuhn, &kuhn_equilibrium(2, 1))?,
        fitting("kuhn-poker-4095", &kuhn, &kuhn_equilibrium(1_365, 455))?,
        fitting("kuhn-poker-without-bluffs", &kuhn, &kuhn_without_bluffs())?,
        fitting("kuhn-poker-every-call", &kuhn, &kuhn_with_every_call())?,
        even("leduc-poker", &leduc())?,
    ])
}

/// The most sets, none of which has a choice; deviations of 255 sets of each player, and the
/// longest listing of all.
fn large_cases() -> Result<Vec<Case>, Refusal> {
    Ok(vec![
        even("most-sets", &most_sets())?,
        even("path-of-255-sets-of-player-1", &comb(|_| Player::One, 3))?,
        even("path-of-255-sets-of-player-2", &comb(|_| Player::Two, 7))?,
        longest_listing()?,
    ])
}

/// 4,078 sets with move 0 at each, where the last of 17 is better.
fn longest_listing() -> Result<Case, Refusal> {
    let tables = most_sets_of_one();
    let game = check_game(&tables.bytes()?)?;
    let sets = game.sets_of(Player::One).into_iter();
    let first: Vec<Move> = sets.map(|set| Move { set, number: 0 }).collect();
    let plan = PlanWeights {
        weights: [pure_weights(&game, Player::One, &first), vec![1]],
    };
    fitting("longest-listing", &tables, &plan.scaled([4_095, 4_095]))
}
