//! Amounts at which the print could go wrong: around 0, where the number of digits grows, with
//! zeros among the digits, with a count and a base that have common divisors, gains that are
//! small, the largest and the smallest.

use crate::choices::{extremes, weights};
use crate::plan::{fitting, Case};
use generator::named::{one_choice, one_leaf};
use generator::tables::{GameTables, Place};
use reference::game::Player;
use reference::Refusal;

pub fn cases() -> Result<Vec<Case>, Refusal> {
    let mut cases = value_cases()?;
    cases.extend(gain_cases()?);
    cases.extend(extreme_cases()?);
    Ok(cases)
}

/// Chance alone, with these weights and payoffs to player 1; player 2 gets the opposite.
fn lottery(entries: &[(u64, i64)]) -> GameTables {
    let mut tables = GameTables::new(entries.iter().map(|entry| entry.0).sum());
    let root = tables.add_chance(tables.root(), entries.len() as u64);
    for (number, &(weight, payoff)) in entries.iter().enumerate() {
        tables.add_leaf(Place::new(root, number as u64, weight), [payoff, -payoff]);
    }
    tables
}

/// Values, of which player 2's has the other sign; then one that is 0 beside one below 0.
fn value_cases() -> Result<Vec<Case>, Refusal> {
    let case = |title, entries: &[(u64, i64)], [d1, d2]: [u64; 2]| {
        fitting(title, &lottery(entries), &weights(&[d1], &[d2]))
    };
    let large = [4_095, 7];
    let least = [1, 1];
    Ok(vec![
        case("value-0", &[(1, 5), (1, -5)], large)?,
        case("value-minus-1-of-4095", &[(1, -1), (4_094, 0)], large)?,
        case("value-2-of-1000", &[(2, 1), (998, 0)], large)?,
        case("value-1999-of-2000", &[(1_999, 1), (1, 0)], large)?,
        case("value-4-of-3", &[(2, 2), (1, 0)], large)?,
        case("value-10", &[(1, 10)], large)?,
        case(
            "value-12345678-of-1000",
            &[(322, 12_345), (678, 12_346)],
            large,
        )?,
        case("count-minus-1", &[(1, -1), (8, 0)], least)?,
        case("count-9", &[(1, 9), (9, 0)], least)?,
        case("count-10", &[(1, 10), (9, 0)], least)?,
        case("count-99", &[(1, 99), (99, 0)], least)?,
        case("count-100", &[(1, 100), (99, 0)], least)?,
        case("count-1000000", &[(1_000, 1_000)], least)?,
        case("count-1000001", &[(999, 1_000), (1, 1_001)], least)?,
        fitting("minus-3-and-0", &leaf_of(1, [-3, 0]), &weights(&[1], &[1]))?,
        fitting("0-and-minus-3", &leaf_of(1, [0, -3]), &weights(&[1], &[1]))?,
    ])
}

/// One leaf alone, with this D0.
fn leaf_of(root_weight: u64, payoffs: [i64; 2]) -> GameTables {
    let mut tables = GameTables::new(root_weight);
    tables.add_leaf(tables.root(), payoffs);
    tables
}

/// D0 = 3: with weight 1 the player's set 0, with these payoffs to him, and else a leaf with that
/// one; the other gets 0.
fn one_in_three(player: Player, payoffs: [i64; 2], other: i64) -> GameTables {
    let to_him = |payoff| match player {
        Player::One => [payoff, 0],
        Player::Two => [0, payoff],
    };
    let mut tables = GameTables::new(3);
    let set = tables.add_set(player, 2);
    let root = tables.add_chance(tables.root(), 2);
    tables.add_leaf(Place::new(root, 0, 2), to_him(other));
    let node = tables.add_decision(Place::new(root, 1, 1), set);
    for (number, payoff) in payoffs.into_iter().enumerate() {
        tables.add_leaf(Place::new(node, number as u64, 1), to_him(payoff));
    }
    tables
}

/// Gains of 1 in so many, and none at all.
fn gain_cases() -> Result<Vec<Case>, Refusal> {
    let case = |title, payoffs, whole: u64| {
        let plan = weights(&[whole, whole - 1, 1], &[1]);
        fitting(title, &one_choice(payoffs), &plan)
    };
    let mut cases = vec![
        case("gain-of-1-of-1000", [1, 0], 1_000)?,
        case("gain-of-1-of-4095-below-0", [-1, -2], 4_095)?,
        case("no-gain-of-4095", [1, 1], 4_095)?,
    ];
    cases.extend(below_a_thousandth()?);
    Ok(cases)
}

/// Gains of less than a thousandth of a payoff point.
pub(crate) fn below_a_thousandth() -> Result<Vec<Case>, Refusal> {
    let one_of_3000 = [3_000, 2_999, 1];
    let one_of_4095 = weights(&[4_095, 4_094, 1], &[4_095, 4_094, 1]);
    Ok(vec![
        fitting(
            "gain-of-1-of-9000",
            &one_in_three(Player::One, [1, 0], 0),
            &weights(&one_of_3000, &[1]),
        )?,
        fitting(
            "gain-of-1-of-9000-by-player-2",
            &one_in_three(Player::Two, [0, -1], -1),
            &weights(&[1], &one_of_3000),
        )?,
        fitting("smallest-gain", &rare_choice(), &one_of_4095)?,
    ])
}

/// D0 = 4,095: behind chance's weight 1 and player 2's move 1, player 1 has 1 or 0 in set 1.
fn rare_choice() -> GameTables {
    let mut tables = GameTables::new(4_095);
    let before = tables.add_set(Player::Two, 2);
    let last = tables.add_set(Player::One, 2);
    let root = tables.add_chance(tables.root(), 2);
    tables.add_leaf(Place::new(root, 0, 4_094), [0, 0]);
    let node = tables.add_decision(Place::new(root, 1, 1), before);
    tables.add_leaf(Place::new(node, 0, 1), [0, 0]);
    let node = tables.add_decision(Place::new(node, 1, 1), last);
    tables.add_leaf(Place::new(node, 0, 1), [1, 0]);
    tables.add_leaf(Place::new(node, 1, 1), [0, 0]);
    tables
}

/// The lowest and the highest payoff, and the gain between them, with each D at 1 and at 4,095.
fn extreme_cases() -> Result<Vec<Case>, Refusal> {
    let (low, high) = (-32_768, 32_767);
    let worst = weights(&[4_095, 4_095, 0], &[4_095, 4_095, 0]);
    let one = [[low, low], [low, high], [high, low], [high, high]];
    let two = [[high, low], [high, high], [low, low], [low, high]];
    Ok(vec![
        fitting(
            "lowest-and-highest-payoff",
            &one_leaf([low, high]),
            &weights(&[1], &[1]),
        )?,
        fitting(
            "lowest-and-highest-payoff-of-4095",
            &leaf_of(4_095, [low, high]),
            &weights(&[4_095], &[4_095]),
        )?,
        fitting(
            "lowest-payoffs",
            &extremes([[low; 2]; 4]),
            &weights(&[4_095, 1, 4_094], &[4_095, 4_094, 1]),
        )?,
        fitting(
            "gain-of-65535",
            &one_choice([low, high]),
            &weights(&[1, 1, 0], &[1]),
        )?,
        fitting("gain-of-65535-by-player-1", &extremes(one), &worst)?,
        fitting("gain-of-65535-by-player-2", &extremes(two), &worst)?,
    ])
}
